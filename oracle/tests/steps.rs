//! Steps: what enters, what it stores, the flags; the run's stop and counts.
mod common;
use std::collections::BTreeSet;

use common::*;
use oracle::{power_up, run, Answer, Psi, State, Step, MEMORY_SIZE};

/// A bench with vectors for everything, a mask, and enabled requests.
fn ready(masks: u16, st: u16) -> Bench {
    let mut b = Bench::with(&[0x1000, 0x1000, 0x1000, 0x1000]);
    for level in 0..=4u16 {
        b.put(4 * level, 0x0401 + 0x20 * level);
        b.put(4 * level + 2, 0x0601 + 0x10 * level);
    }
    b.put(0x3FFC, 0x0501);
    b.put(0x3FFE, 0x0701);
    b.state.psi.control_and_masks = masks;
    b.state.st = st;
    b
}

#[test]
fn what_each_code_enters() {
    for mask in 0..=15u16 {
        for n in 1..=15u32 {
            let mut b = ready(0xFFFE, 0xFFF0 | mask);
            let before = b.state;
            let kind = b.kind(low(&[n]));
            let (wp, pc, st, expected) = match n % 8 {
                0 | 1 => (0x0400, 0x0600, 0, Step::Reset),
                2 => (0x0500, 0x0700, 0xFFF0, Step::Load),
                7 => (0, 0, 0, Step::Instruction),
                code => {
                    let level = code as u16 - 2;
                    if level <= mask {
                        (
                            0x0400 + 0x20 * level,
                            0x0600 + 0x10 * level,
                            0xFFF0 | (level - 1),
                            Step::Level(level),
                        )
                    } else {
                        (0, 0, 0, Step::Instruction)
                    }
                }
            };
            assert_eq!(kind, expected);
            assert_eq!(b.state.psi, before.psi);
            if kind == Step::Instruction {
                assert_eq!(
                    b.state,
                    State {
                        pc: PC + 2,
                        flags: 0,
                        ..before
                    }
                );
            } else {
                assert_eq!(
                    (b.state.wp, b.state.pc, b.state.st, b.state.flags),
                    (wp, pc, st, 2)
                );
                assert_eq!((b.r(13), b.r(14), b.r(15)), (WP, PC, before.st));
            }
        }
    }
}

#[test]
fn a_request_behind_a_lower_one_is_not_entered() {
    // INT6 is level 4, masked off by the processor; INT8 behind it is not a reset.
    let mut b = ready(0xFFFE, 0x0003);
    assert_eq!(b.kind(low(&[6, 8])), Step::Instruction);
    // INT7 is the no-op code; INT8, INT9, INT10 and INT11 behind it wait.
    let mut b = ready(0xFFFE, 0x000F);
    assert_eq!(b.kind(low(&[7, 8, 9, 10, 11])), Step::Instruction);
    // A disabled lower one hides nothing.
    let mut b = ready(0xFFFE & !(1 << 7), 0x000F);
    assert_eq!(b.kind(low(&[7, 11])), Step::Level(1));
}

#[test]
fn nothing_is_entered_where_masks_are_off() {
    let mut b = ready(0x0001, 0x000F); // weight 1 is the control bit, not a mask
    assert_eq!(b.kind(0), Step::Instruction);
}

#[test]
fn the_clocks_request() {
    // While the load is not 0 the pin INT3 plays no part.
    let mut b = ready(1 << 3, 0x000F);
    b.state.psi.load = 2;
    assert_eq!(b.kind(low(&[3])), Step::Instruction);
    b.state.psi.pending = 1;
    assert_eq!(b.kind(QUIET), Step::Level(1));
    // Entering does not clear pending; it enters again after one instruction if let.
    assert_eq!(b.state.psi.pending, 1);
    // With load 0 pending plays no part.
    let mut b = ready(1 << 3, 0x000F);
    b.state.psi.pending = 1;
    assert_eq!(b.kind(QUIET), Step::Instruction);
    assert_eq!(b.kind(low(&[3])), Step::Level(1));
    // The clock advances before the sampling, of the same step.
    let mut b = ready(1 << 3, 0x000F);
    b.state.psi.load = 5;
    b.state.psi.decrementer = 1;
    b.state.psi.read_register = 1;
    b.state.psi.phase = 63;
    assert_eq!(b.kind(cycles(0)), Step::Instruction);
    assert_eq!(b.kind(cycles(1)), Step::Level(1));
}

#[test]
fn an_output_port_on_a_shared_pin_requests() {
    // P15 is INT7, P14 is INT8, P11 is INT11: an output latch 0 is a low pin.
    let mut b = ready(1 << 11, 0x000F);
    b.state.psi.directions = 1 << 11;
    assert_eq!(b.kind(QUIET), Step::Level(1));
    let mut b = ready(1 << 11, 0x000F);
    b.state.psi.directions = 1 << 11;
    b.state.psi.latches = 1 << 11;
    assert_eq!(b.kind(low(&[11])), Step::Instruction);
    let mut b = ready(1 << 8, 0x0000);
    b.state.psi.directions = 1 << 14;
    assert_eq!(b.kind(QUIET), Step::Reset);
}

#[test]
fn no_sample() {
    // After an entry one instruction is executed before the next sampling, but resets come at once.
    let mut b = ready(0xFFFE, 0x000F);
    b.state.flags = 2;
    assert_eq!(b.kind(low(&[2])), Step::Instruction);
    assert_eq!(b.state.flags, 0);
    assert_eq!(b.kind(low(&[2])), Step::Load);
    assert_eq!(b.state.flags, 2);
    assert_eq!(b.kind(low(&[2])), Step::Unassigned(0x0700)); // word 0000
    assert_eq!(b.kind(low(&[2])), Step::Load);
    assert_eq!(b.kind(low(&[1])), Step::Reset);
    assert_eq!(b.kind(low(&[8])), Step::Reset);
    assert_eq!(b.state.flags, 2);
    // BLWP and XOP set it: the request waits for one instruction.
    for words in [[0x0420, 0x0800], [0x2C20, 0x0800]] {
        let mut b = ready(0xFFFE, 0x000F);
        b.program(&words);
        b.put(0x0800, 0x0900);
        b.put(0x0802, 0x0A00);
        b.put(0x0040, 0x0900);
        b.put(0x0042, 0x0A00);
        b.put(0x0A00, 0x1000);
        assert_eq!(b.kind(QUIET), Step::Instruction);
        assert_eq!(b.state.flags, 2);
        assert_eq!(b.kind(low(&[4])), Step::Instruction);
        assert_eq!((b.state.pc, b.state.flags), (0x0A02, 0));
        assert_eq!(b.kind(low(&[4])), Step::Level(2));
    }
    // RTWP does not set it.
    let mut b = ready(0xFFFE, 0x000F);
    b.program(&[0x0380]);
    b.set_r(13, WP);
    b.set_r(14, PC);
    b.set_r(15, 0x000F);
    assert_eq!(b.kind(QUIET), Step::Instruction);
    assert_eq!(b.kind(low(&[4])), Step::Level(2));
}

#[test]
fn idle() {
    let mut b = ready(0xFFFE, 0x0002);
    b.program(&[0x0340]);
    assert_eq!(b.kind(QUIET), Step::Instruction);
    assert_eq!((b.state.flags, b.state.pc), (1, PC + 2));
    let memory = b.memory.clone();
    assert_eq!(b.kind(QUIET), Step::Idle);
    assert_eq!(b.kind(low(&[5])), Step::Idle); // level 3 is above the mask
    assert_eq!(b.kind(cycles(10)), Step::Idle);
    assert_eq!((b.state.flags, b.state.pc, b.state.psi.phase), (1, PC + 2, 10));
    assert_eq!(b.memory, memory);
    assert_eq!(b.kind(low(&[4])), Step::Level(2));
    assert_eq!((b.state.flags, b.r(14)), (2, PC + 2));
    for (n, kind) in [(1, Step::Reset), (2, Step::Load), (3, Step::Level(1))] {
        let mut b = ready(0xFFFE, 0x000F);
        b.state.flags = 1;
        assert_eq!(b.kind(low(&[n])), kind);
        assert_eq!(b.state.flags, 2);
    }
}

#[test]
fn idle_right_after_an_entry() {
    // IDLE by itself, through X, and through eight X.
    for links in [0, 1, 8] {
        let mut b = ready(0xFFFE, 0x000F);
        b.program(&[if links == 0 { 0x0340 } else { 0x0481 }]);
        for n in 1..links {
            b.set_r(n, 0x0481 + n);
        }
        b.set_r(links.max(1), 0x0340);
        b.state.flags = 2;
        // LOAD waits for one instruction, and is then let in at once.
        assert_eq!(b.kind(low(&[2])), Step::Instruction);
        assert_eq!((b.state.flags, b.state.pc), (1, PC + 2));
        assert_eq!(b.kind(low(&[2])), Step::Load);
        assert_eq!((b.state.flags, b.r(14)), (2, PC + 2));
    }
    // The same where the entry was made by a step.
    for word in [0x0340, 0x0481] {
        for (words, record, kind) in [
            ([0x1000, 0x1000], low(&[1]), Step::Reset),
            ([0x1000, 0x1000], low(&[2]), Step::Load),
            ([0x1000, 0x1000], low(&[3]), Step::Level(1)),
            ([0x0420, 0x0010], QUIET, Step::Instruction), // BLWP
            ([0x2C20, 0x0800], QUIET, Step::Instruction), // XOP
        ] {
            let mut b = ready(0xFFFE, 0x000F);
            b.program(&words);
            b.put(0x0040, 0x0480);
            b.put(0x0042, 0x0640);
            assert_eq!(b.kind(record), kind);
            assert_eq!(b.state.flags, 2);
            b.program(&[word]);
            b.set_r(1, 0x0340);
            assert_eq!(b.kind(low(&[2])), Step::Instruction);
            assert_eq!(b.state.flags, 1);
            assert_eq!(b.kind(QUIET), Step::Idle);
            assert_eq!(b.state.flags, 1);
            assert_eq!(b.kind(low(&[2])), Step::Load);
            assert_eq!(b.state.flags, 2);
        }
    }
}

#[test]
fn flags_after_every_word() {
    let mut b = Bench::new();
    let start = b.state;
    for word in 0..=0xFFFF {
        // What X leads to is not known here.
        if word & 0xFFC0 == 0x0480 {
            continue;
        }
        let expected = match word {
            0x0340..=0x035F => 1,
            0x0400..=0x043F | 0x2C00..=0x2FFF => 2,
            _ => 0,
        };
        for flags in [0, 2] {
            for first in [word, 0x0481] {
                b.state = State { flags, ..start };
                b.program(&[first]);
                b.set_r(1, word);
                b.kind(QUIET);
                assert_eq!(b.state.flags, expected, "{word:04X} by {first:04X}");
            }
        }
    }
}

#[test]
fn vectors_are_read_before_the_saving() {
    // New WP such that R13 to R15 lie on the vector itself.
    let mut b = ready(0xFFFE, 0x000F);
    b.put(4, 0x0005_u16.wrapping_sub(26)); // odd; R13 at 4
    b.put(6, 0x0801);
    assert_eq!(b.kind(low(&[3])), Step::Level(1));
    assert_eq!((b.state.wp, b.state.pc), (4u16.wrapping_sub(26), 0x0800));
    assert_eq!((b.word(4), b.word(6), b.word(8)), (WP, PC, 0x000F));
}

#[test]
fn power_up_enters_reset() {
    let mut memory = vec![0xAA; MEMORY_SIZE];
    memory[..4].copy_from_slice(&[0x83, 0x01, 0x12, 0x35]);
    let answer = power_up(&mut memory);
    let state = State {
        wp: 0x8300,
        pc: 0x1234,
        st: 0,
        flags: 2,
        psi: Psi::BLANK,
        read_only: 16384,
    };
    assert_eq!(
        answer,
        Answer {
            number: 0,
            block: 0,
            steps: 0,
            unassigned: 0,
            last: Step::Nothing,
            state
        }
    );
    let mut expected = vec![0xAA; MEMORY_SIZE];
    expected[..4].copy_from_slice(&[0x83, 0x01, 0x12, 0x35]);
    expected[0x0300 + 26..0x0300 + 32].fill(0);
    assert_eq!(memory, expected);
    for size in [0, 16383, 16385] {
        let mut memory = vec![0xAA; size];
        let answer = power_up(&mut memory);
        assert_eq!(
            answer,
            Answer {
                number: 1,
                block: 0,
                steps: 0,
                unassigned: 0,
                last: Step::Nothing,
                state: State::BLANK
            }
        );
        assert_eq!(memory, vec![0xAA; size]);
    }
}

/// States that are not well formed, each in one way.
pub fn ill_formed() -> Vec<State> {
    let good = State {
        wp: WP,
        pc: PC,
        ..State::BLANK
    };
    let psi = |psi: Psi| State { psi, ..good };
    let read_only = |read_only: u32| State { read_only, ..good };
    vec![
        State { wp: WP + 1, ..good },
        State { pc: PC + 1, ..good },
        State { flags: 3, ..good },
        State { flags: 4, ..good },
        State { flags: 7, ..good },
        State {
            flags: 0x8000,
            ..good
        },
        psi(Psi {
            load: 16384,
            ..Psi::BLANK
        }),
        psi(Psi {
            load: 20000,
            ..Psi::BLANK
        }),
        psi(Psi {
            decrementer: 16384,
            read_register: 16384,
            ..Psi::BLANK
        }),
        psi(Psi {
            control_and_masks: 1,
            decrementer: 16384,
            ..Psi::BLANK
        }),
        psi(Psi {
            control_and_masks: 1,
            read_register: 16384,
            ..Psi::BLANK
        }),
        psi(Psi {
            phase: 64,
            ..Psi::BLANK
        }),
        psi(Psi {
            pending: 2,
            ..Psi::BLANK
        }),
        psi(Psi {
            latches: 1,
            ..Psi::BLANK
        }),
        psi(Psi {
            latches: 3,
            directions: 0xFFFE,
            ..Psi::BLANK
        }),
        psi(Psi {
            control_and_masks: 0xFFFE,
            decrementer: 1,
            ..Psi::BLANK
        }),
        psi(Psi {
            read_register: 1,
            ..Psi::BLANK
        }),
        // odd
        read_only(1),
        read_only(8191),
        read_only(16383),
        // too large, the last ones with a low half that would do
        read_only(16385),
        read_only(16386),
        read_only(32768),
        read_only(65534),
        read_only(65535),
        read_only(4_294_967_295),
        read_only(4_294_967_294),
        read_only(65536),
        read_only(65536 + 2),
        read_only(65536 + 16384),
        read_only(0xFFFF_0000),
    ]
}

#[test]
fn refusals_of_the_run_in_order() {
    let good = State {
        wp: WP,
        pc: PC,
        ..State::BLANK
    };
    let refused = |number, state| Answer {
        number,
        block: 0,
        steps: 0,
        unassigned: 0,
        last: Step::Nothing,
        state,
    };
    // 1 before 2 before 3
    let mut memory = vec![0x11; MEMORY_SIZE];
    for flags in [3, 7] {
        let bad = State { flags, ..good };
        for size in [0, 16383, 16385] {
            let mut memory = vec![0x11; size];
            assert_eq!(run(&mut memory, bad, &[], 1, 1), refused(1, bad));
            assert_eq!(run(&mut memory, bad, &[QUIET], 1, 1), refused(1, bad));
            assert_eq!(run(&mut memory, good, &[], 0, 1), refused(1, good));
            assert_eq!(memory, vec![0x11; size]);
        }
        assert_eq!(run(&mut memory, bad, &[], 1, 1), refused(2, bad));
        assert_eq!(run(&mut memory, bad, &[QUIET; 5], 6, 1), refused(2, bad));
        // 2 even where no step would be done
        assert_eq!(run(&mut memory, bad, &[QUIET; 5], 0, 1), refused(2, bad));
        assert_eq!(run(&mut memory, bad, &[QUIET; 5], 5, PC), refused(2, bad));
        // 2 even where the first step would be a reset
        let mut bad = bad;
        bad.psi.control_and_masks = 0xFFFE;
        assert_eq!(run(&mut memory, bad, &[0; 5], 5, 1), refused(2, bad));
    }
    for state in ill_formed() {
        assert!(!state.is_well_formed());
        assert_eq!(run(&mut memory, state, &[QUIET], 1, 1), refused(2, state));
    }
    assert_eq!(run(&mut memory, good, &[], 1, 1), refused(3, good));
    assert_eq!(run(&mut memory, good, &[QUIET; 5], 6, 1), refused(3, good));
    // 3 even where the run would stop at once
    assert_eq!(run(&mut memory, good, &[QUIET; 5], 6, PC), refused(3, good));
    assert_eq!(
        run(&mut memory, good, &[QUIET; 5], usize::MAX, PC),
        refused(3, good)
    );
    assert_eq!(memory, vec![0x11; MEMORY_SIZE]);
    // Zero steps is accepted.
    assert_eq!(run(&mut memory, good, &[], 0, 1), refused(0, good));
    assert_eq!(run(&mut memory, good, &[QUIET; 5], 0, 1), refused(0, good));
    // Extremes that are well formed.
    let psi = Psi {
        control_and_masks: 0xFFFF,
        directions: 0xFFFF,
        latches: 0xFFFF,
        load: 16383,
        decrementer: 16383,
        read_register: 0,
        phase: 63,
        pending: 1,
    };
    let extreme = State {
        wp: 0xFFFE,
        pc: 0xFFFE,
        st: 0xFFFF,
        flags: 2,
        psi,
        read_only: 0,
    };
    assert_eq!(run(&mut memory, extreme, &[], 0, 1), refused(0, extreme));
    let beyond = State { flags: 3, ..extreme };
    assert_eq!(run(&mut memory, beyond, &[], 0, 1), refused(2, beyond));
}

#[test]
fn stop_address() {
    let mut b = Bench::with(&[0x1000, 0x0000, 0x1000, 0x1000]);
    let records = [cycles(3); 8];
    let answer = run(&mut b.memory, b.state, &records, 8, PC + 4);
    assert_eq!((answer.number, answer.steps, answer.unassigned), (0, 2, 1));
    assert_eq!((answer.state.pc, answer.state.psi.phase), (PC + 4, 6));
    // At once: nothing is used up, not even for an idle machine or a pending reset.
    for flags in 0..=2 {
        let state = State {
            flags,
            psi: Psi {
                control_and_masks: 0xFFFE,
                ..Psi::BLANK
            },
            ..b.state
        };
        let answer = run(&mut b.memory, state, &[0; 8], 8, PC);
        assert_eq!(
            answer,
            Answer {
                number: 0,
                block: 0,
                steps: 0,
                unassigned: 0,
                last: Step::Nothing,
                state
            }
        );
    }
    // All 16 bits are compared; an odd stop address is never met.
    let answer = run(&mut b.memory, b.state, &records, 4, (PC + 4) | 0x4000);
    assert_eq!(answer.steps, 4);
    let answer = run(&mut b.memory, b.state, &records, 4, (PC + 4) | 1);
    assert_eq!(answer.steps, 4);
    // An entry's PC counts too.
    let mut b = ready(0xFFFE, 0x000F);
    let answer = run(&mut b.memory, b.state, &[low(&[4]); 3], 3, 0x0620);
    assert_eq!(answer.steps, 1);
}

#[test]
fn steps_are_counted_with_entries_and_idle_ones() {
    let mut b = ready(0xFFFE, 0x000F);
    b.program(&[0x0340]);
    let records = [QUIET, QUIET, low(&[4]), QUIET, low(&[4])];
    let answer = b.run(&records);
    // IDLE, idle, level 2, an unassigned word 0000, and one more (level 2 is above mask 1)
    assert_eq!((answer.steps, answer.unassigned), (5, 2));
}

/// Random machines for the laws below.
fn random_machine(random: &mut Random) -> (Vec<u8>, State, Vec<u32>) {
    let mut memory: Vec<u8> = (0..MEMORY_SIZE).map(|_| random.word() as u8).collect();
    // Mostly words that do something.
    for i in 0..MEMORY_SIZE / 2 {
        if random.below(3) == 0 {
            let word = random.word() & 0x3FFF;
            memory[2 * i] = (word >> 8) as u8;
            memory[2 * i + 1] = word as u8;
        }
    }
    let directions = random.word();
    let control = random.word();
    let decrementer = random.word() % 16384;
    let state = State {
        wp: random.word() & !1,
        pc: random.word() & !1,
        st: random.word(),
        flags: random.below(3) as u16,
        psi: Psi {
            control_and_masks: control,
            directions,
            latches: directions & random.word(),
            load: if random.below(2) == 0 {
                random.below(4) as u16
            } else {
                random.word() % 16384
            },
            decrementer,
            read_register: if control & 1 == 0 {
                decrementer
            } else {
                random.word() % 16384
            },
            phase: random.below(64) as u16,
            pending: random.below(2) as u16,
        },
        read_only: if random.below(2) == 0 {
            State::NO_READ_ONLY
        } else {
            2 * random.below(8193) as u32
        },
    };
    let records = (0..64)
        .map(|_| match random.below(4) {
            0 => random.record(),
            _ => random.record() | QUIET & !(1 << random.below(22)),
        })
        .collect();
    (memory, state, records)
}

#[test]
fn running_a_then_b_is_running_both() {
    let mut random = Random(99);
    for _ in 0..2000 {
        let (memory, state, records) = random_machine(&mut random);
        let stop = if random.below(2) == 0 {
            1
        } else {
            state.pc.wrapping_add(2 * random.below(8) as u16)
        };
        let whole_steps = random.below(65) as usize;
        let first_steps = random.below(whole_steps as u64 + 1) as usize;
        let mut at_once = memory.clone();
        let whole = run(&mut at_once, state, &records, whole_steps, stop);
        assert_eq!(whole.number, 0);
        assert!(whole.state.is_well_formed());
        let mut in_parts = memory;
        let first = run(&mut in_parts, state, &records, first_steps, stop);
        let second = run(
            &mut in_parts,
            first.state,
            &records[first.steps..],
            whole_steps - first_steps,
            stop,
        );
        assert_eq!(second.number, 0);
        assert_eq!(first.steps + second.steps, whole.steps);
        assert_eq!(first.unassigned + second.unassigned, whole.unassigned);
        let last = if second.steps == 0 { first } else { second }.last;
        assert_eq!(last, whole.last);
        assert_eq!(second.state, whole.state);
        assert_eq!(in_parts, at_once);
    }
}

#[test]
fn states_stay_well_formed() {
    let mut random = Random(7);
    for _ in 0..1000 {
        let (memory, state, records) = random_machine(&mut random);
        let mut b = Bench { memory, state };
        for record in records {
            b.kind(record); // asserts it
        }
    }
}

/// A random machine whose memory has many words that touch the flags, and whose
/// masks and pins let some requests in.
fn lively_machine(random: &mut Random) -> (Bench, Vec<u32>) {
    let (memory, state, mut records) = random_machine(random);
    let mut b = Bench { memory, state };
    if random.below(4) != 0 {
        b.state.psi.directions = 0;
        b.state.psi.latches = 0;
    }
    for i in 0..MEMORY_SIZE as u16 / 2 {
        let low = random.word();
        match random.below(24) {
            0 => b.put(2 * i, 0x0340 | low & 0x1F),  // IDLE
            1 => b.put(2 * i, 0x0480 | low & 0x3F),  // X
            2 => b.put(2 * i, 0x0400 | low & 0x3F),  // BLWP
            3 => b.put(2 * i, 0x2C00 | low & 0x3FF), // XOP
            4 => b.put(2 * i, 0x0380 | low & 0x1F),  // RTWP
            _ => {}
        }
    }
    for record in &mut records {
        if random.below(2) == 0 {
            *record |= QUIET;
        }
    }
    (b, records)
}

fn name(kind: Step) -> &'static str {
    match kind {
        Step::Nothing => "nothing",
        Step::Reset => "reset",
        Step::Load => "load",
        Step::Level(_) => "level",
        Step::Instruction => "instruction",
        Step::Idle => "idle",
        Step::Unassigned(_) => "unassigned",
    }
}

/// Flags before a step, what it was, and flags after it.
type Change = (u16, &'static str, u16);

/// All that can come of a step.
const CHANGES: [Change; 16] = [
    (0, "instruction", 0),
    (0, "instruction", 1),
    (0, "instruction", 2),
    (0, "level", 2),
    (0, "load", 2),
    (0, "reset", 2),
    (0, "unassigned", 0),
    (1, "idle", 1),
    (1, "level", 2),
    (1, "load", 2),
    (1, "reset", 2),
    (2, "instruction", 0),
    (2, "instruction", 1),
    (2, "instruction", 2),
    (2, "reset", 2),
    (2, "unassigned", 0),
];

/// Does the steps one by one, and notes what each changed.
fn follow(mut b: Bench, records: &[u32], met: &mut BTreeSet<Change>) {
    for &record in records {
        let before = b.state.flags;
        let kind = b.kind(record);
        assert!(b.state.flags <= 2);
        met.insert((before, name(kind), b.state.flags));
    }
}

#[test]
fn no_step_sets_both_flags() {
    let mut random = Random(12);
    let mut met = BTreeSet::new();
    for flags in 0..=2 {
        for _ in 0..2000 {
            let (mut b, records) = lively_machine(&mut random);
            b.state.flags = flags;
            follow(b, &records, &mut met);
        }
    }
    assert_eq!(met, BTreeSet::from(CHANGES));
}

#[test]
fn no_step_from_power_up_sets_both_flags() {
    let mut random = Random(1212);
    let mut met = BTreeSet::new();
    for _ in 0..4000 {
        let (mut b, records) = lively_machine(&mut random);
        if random.below(2) == 0 {
            // CLR R12; LI R1; LDCR R1,0; LIMI 15: some requests are let in.
            b.state.pc = b.word(2);
            b.program(&[0x04CC, 0x0201, random.word() & !1, 0x3001, 0x0300, 15]);
        }
        let answer = power_up(&mut b.memory);
        assert_eq!((answer.number, answer.state.flags), (0, 2));
        b.state = answer.state;
        follow(b, &records, &mut met);
    }
    assert_eq!(met, BTreeSet::from(CHANGES));
}
