//! The PSI: pins, requests, clock, CRU bits; LDCR, STCR, SBO, SBZ, TB.
mod common;
use common::*;
use oracle::{CruBit, Pins, Psi};

fn bit(n: u16) -> CruBit {
    CruBit::from_r12(2 * n)
}

fn level(record: u32, weight: u32) -> bool {
    record & (1 << weight) != 0
}

#[test]
fn cru_bit_numbers() {
    assert_eq!(CruBit::from_r12(0).number(), 0);
    assert_eq!(CruBit::from_r12(1).number(), 0);
    assert_eq!(CruBit::from_r12(62).number(), 31);
    assert_eq!(CruBit::from_r12(0x0FFF).number(), 2047);
    assert_eq!(CruBit::from_r12(0x1000).number(), 0);
    assert_eq!(CruBit::from_r12(0xFFFF).number(), 2047);
    assert_eq!(bit(0).plus(-1).number(), 2047);
    assert_eq!(bit(2047).plus(1).number(), 0);
    assert_eq!(bit(100).plus(-128).number(), 2020);
    assert_eq!(bit(2040).plus(127).number(), 119);
}

#[test]
fn pins_of_a_record() {
    let mut random = Random(3);
    for _ in 0..2000 {
        let record = random.record();
        let pins = Pins(record);
        assert_eq!(pins.cycles(), record >> 22);
        let (directions, latches) = (random.word(), random.word());
        let mut psi = Psi {
            directions,
            latches: latches & directions,
            ..Psi::BLANK
        };
        for n in 1..=15u32 {
            // INT1 to INT6 weights 0 to 5, INT7 to INT15 weights 6 to 14; INTn is P(22-n).
            let mut expected = level(record, n - 1);
            if n >= 7 && directions & 1 << (22 - n) != 0 {
                expected = latches & 1 << (22 - n) != 0;
            }
            assert_eq!(psi.read_bit(bit(n as u16), pins), expected);
        }
        for p in 0..=15u32 {
            let mut expected = if p <= 6 {
                level(record, 15 + p)
            } else {
                level(record, 21 - p)
            };
            if directions & 1 << p != 0 {
                expected = latches & 1 << p != 0;
            }
            assert_eq!(psi.read_bit(bit(16 + p as u16), pins), expected);
        }
    }
}

#[test]
fn codes() {
    let mut random = Random(4);
    for _ in 0..20000 {
        let record = random.record() | if random.below(2) == 0 { random.record() } else { 0 };
        let (masks, directions, latches) = (random.word() & random.word(), random.word(), random.word());
        let (load, pending) = (random.below(2) as u16, random.below(2) as u16);
        let mut psi = Psi {
            control_and_masks: masks,
            directions,
            latches: latches & directions,
            load,
            pending,
            ..Psi::BLANK
        };
        let mut expected = 7;
        let mut any = false;
        for n in (1..=15u32).rev() {
            let mut pin = level(record, n - 1);
            if n >= 7 && directions & 1 << (22 - n) != 0 {
                pin = latches & 1 << (22 - n) != 0;
            }
            let active = if n == 3 && load != 0 { pending == 1 } else { !pin };
            if active && masks & 1 << n != 0 {
                expected = n % 8;
                any = true;
            }
        }
        assert_eq!(psi.request_code(Pins(record)), expected);
        psi.control_and_masks |= 1;
        assert_eq!(psi.request_code(Pins(record)), expected); // the control bit plays no part
        assert_eq!(psi.read_bit(bit(15), Pins(record)), any);
    }
}

/// One cycle, as the rules tell it.
fn cycle(psi: &mut Psi) {
    if psi.phase != 63 {
        psi.phase += 1;
        return;
    }
    psi.phase = 0;
    psi.decrementer = match psi.decrementer {
        0 if psi.load == 0 => 16383,
        0 => psi.load,
        value => value - 1,
    };
    if psi.decrementer == 0 && psi.load != 0 {
        psi.pending = 1;
    }
    if psi.control_and_masks % 2 == 0 {
        psi.read_register = psi.decrementer;
    }
}

#[test]
fn the_clock_against_single_cycles() {
    let mut random = Random(5);
    for _ in 0..400 {
        let load = [0, 1, 2, 3, 5, 16383][random.below(6) as usize];
        let decrementer = [0, 1, 2, 4, 16383][random.below(5) as usize];
        let control = random.below(2) as u16;
        let mut psi = Psi {
            control_and_masks: control,
            load,
            decrementer,
            read_register: if control == 0 { decrementer } else { 9 },
            phase: random.below(64) as u16,
            ..Psi::BLANK
        };
        let mut slow = psi;
        for _ in 0..40 {
            let count = if random.below(3) == 0 {
                1023
            } else {
                random.below(1024) as u32
            };
            psi.advance(count);
            for _ in 0..count {
                cycle(&mut slow);
            }
            assert_eq!(psi, slow);
            if random.below(4) == 0 {
                psi.pending = 0;
                slow.pending = 0;
            }
        }
    }
}

#[test]
fn clock_with_load_zero_runs_on_without_pending() {
    let mut psi = Psi {
        decrementer: 1,
        read_register: 1,
        ..Psi::BLANK
    };
    psi.advance(64);
    assert_eq!((psi.decrementer, psi.pending), (0, 0));
    psi.advance(64);
    assert_eq!((psi.decrementer, psi.pending), (16383, 0));
    psi.advance(64);
    assert_eq!((psi.decrementer, psi.read_register), (16382, 16382));
    // A blank clock goes from 0 to 16383 at its first tick.
    let mut psi = Psi::BLANK;
    psi.advance(63);
    assert_eq!((psi.decrementer, psi.phase), (0, 63));
    psi.advance(1);
    assert_eq!((psi.decrementer, psi.phase), (16383, 0));
}

#[test]
fn clock_period_is_load_plus_one() {
    for load in [1u16, 2, 7] {
        let mut psi = Psi { load, ..Psi::BLANK };
        let mut ticks = Vec::new();
        for tick in 1..=40u16 {
            psi.advance(64);
            if psi.pending == 1 {
                ticks.push(tick);
                psi.pending = 0;
            }
        }
        assert_eq!(ticks[0], load + 1);
        assert!(ticks.windows(2).all(|pair| pair[1] - pair[0] == load + 1));
    }
}

/// Clocks of some loads and values, with all phases in `phases`, in both modes
/// and with pending 0, 1 and 5. The read register is neither load nor value.
fn clocks(phases: &[u16]) -> Vec<Psi> {
    let mut clocks = Vec::new();
    for load in [0u16, 1, 2, 3, 16383, 65535] {
        for decrementer in [0, 1, 2, load, load.wrapping_add(1), load.wrapping_add(2), 65535] {
            for &phase in phases {
                for control_and_masks in [0xFFFE, 0xFFFF] {
                    for pending in [0, 1, 5] {
                        clocks.push(Psi {
                            control_and_masks,
                            directions: 0xF0F0,
                            latches: 0x5050,
                            load,
                            decrementer,
                            read_register: 777,
                            phase,
                            pending,
                        });
                    }
                }
            }
        }
    }
    clocks
}

#[test]
fn advancing_in_one_call_is_advancing_cycle_by_cycle() {
    for start in clocks(&[0, 1, 40, 63]) {
        let mut by_ones = start;
        let mut by_rules = start;
        for count in 0..2000 {
            let mut at_once = start;
            at_once.advance(count);
            assert_eq!(at_once, by_ones, "{count} from {start:?}");
            assert_eq!(at_once, by_rules, "{count} from {start:?}");
            by_ones.advance(1);
            cycle(&mut by_rules);
        }
    }
}

#[test]
fn a_phase_above_63_makes_ticks_without_a_cycle() {
    // 200 = 3 * 64 + 8.
    let start = Psi {
        load: 5,
        decrementer: 5,
        phase: 200,
        ..Psi::BLANK
    };
    let mut psi = start;
    psi.advance(0);
    assert_eq!(
        psi,
        Psi {
            decrementer: 2,
            read_register: 2,
            phase: 8,
            ..start
        }
    );
    // It stands for as many cycles from phase 0.
    for start in clocks(&[64, 200, 65535]) {
        let mut by_rules = Psi { phase: 0, ..start };
        for _ in 0..start.phase {
            cycle(&mut by_rules);
        }
        for count in 0..70 {
            let mut at_once = start;
            at_once.advance(count);
            assert_eq!(at_once, by_rules, "{count} from {start:?}");
            cycle(&mut by_rules);
        }
    }
}

#[test]
fn advancing_twice_is_advancing_by_the_sum() {
    let mut random = Random(6);
    let check = |start: Psi, first: u32, second: u32| {
        let mut once = start;
        once.advance(first + second);
        let mut twice = start;
        twice.advance(first);
        twice.advance(second);
        assert_eq!(once, twice, "{first} + {second} from {start:?}");
    };
    for start in clocks(&[0, 63, 64, 200, 65535]) {
        check(start, 0, 0);
        for limit in [2, 64, 65, 1024, 200_000] {
            let (first, second) = (random.below(limit) as u32, random.below(limit) as u32);
            check(start, first, second);
        }
    }
    // Any words, with counts that add up to the largest.
    for phase in [0, 63, 200, 65535] {
        let start = Psi {
            control_and_masks: random.word(),
            load: random.word(),
            decrementer: random.word(),
            read_register: random.word(),
            phase,
            pending: random.word(),
            ..Psi::BLANK
        };
        let first = random.record();
        check(start, first, u32::MAX - first);
    }
}

#[test]
fn the_largest_count() {
    // 63 + 4294967295 = 64 * 67108864 + 62, and 67108864 = 4096 * 16384.
    // Each case: load, value, and value and pending after.
    let cases = [
        // Whole rounds of 16384.
        (0, 0, 0, 0),
        (0, 5, 5, 0),
        // After the 20000 ticks to 0 there are 67088864, 4094 rounds and 12768: 16384 - 12768.
        (0, 20000, 3616, 0),
        // Whole rounds of 2.
        (1, 0, 0, 1),
        (1, 1, 1, 1),
        // After the 2 ticks to 0 again an even number.
        (1, 2, 0, 1),
        // 22369621 rounds of 3 and one tick.
        (2, 0, 2, 1),
        // Whole rounds of 16384 and of 65536.
        (16383, 0, 0, 1),
        (65535, 7, 7, 1),
    ];
    for (load, decrementer, after, pending) in cases {
        let start = Psi {
            load,
            decrementer,
            read_register: 777,
            phase: 63,
            ..Psi::BLANK
        };
        let mut psi = start;
        psi.advance(u32::MAX);
        assert_eq!(
            psi,
            Psi {
                decrementer: after,
                read_register: after,
                phase: 62,
                pending,
                ..start
            }
        );
    }
    // One tick less from phase 0, so the last round lacks the tick to 0.
    let mut psi = Psi::BLANK;
    psi.advance(u32::MAX);
    assert_eq!((psi.decrementer, psi.phase), (1, 63));
}

#[test]
fn without_a_tick_only_the_phase_moves() {
    for start in clocks(&[0, 1, 40, 63]) {
        let mut psi = start;
        psi.advance(0);
        assert_eq!(psi, start);
        psi.advance(u32::from(63 - start.phase));
        assert_eq!(psi, Psi { phase: 63, ..start });
        psi.advance(1);
        let read = if start.control() { 777 } else { psi.decrementer };
        assert_eq!((psi.read_register, psi.phase), (read, 0));
    }
}

#[test]
fn a_pending_of_5_stays_until_it_becomes_1() {
    let start = Psi {
        load: 2,
        decrementer: 2,
        pending: 5,
        ..Psi::BLANK
    };
    let mut psi = start;
    psi.advance(127);
    assert_eq!((psi.decrementer, psi.pending), (1, 5));
    psi.advance(1);
    assert_eq!((psi.decrementer, psi.pending), (0, 1));
    // Neither reloading nor becoming 0 with a load of 0 touches it.
    let mut psi = Psi {
        decrementer: 0,
        ..start
    };
    psi.advance(64);
    assert_eq!((psi.decrementer, psi.pending), (2, 5));
    // 2 ticks to 0, a round of 16384, and 3614 more.
    let mut psi = Psi { load: 0, ..start };
    psi.advance(64 * 20000);
    assert_eq!((psi.decrementer, psi.pending), (12770, 5));
}

#[test]
fn the_clock_takes_words_as_they_stand() {
    for (load, decrementer, after) in [
        (65535, 0, 65535),
        (16384, 0, 16384),
        (1, 65535, 65534),
        (0, 16384, 16383),
        (65535, 16384, 16383),
    ] {
        let mut psi = Psi {
            load,
            decrementer,
            ..Psi::BLANK
        };
        psi.advance(64);
        assert_eq!((psi.load, psi.decrementer, psi.pending), (load, after, 0));
    }
}

#[test]
fn control_bit() {
    let high = Pins(QUIET);
    let mut psi = Psi {
        decrementer: 100,
        read_register: 100,
        ..Psi::BLANK
    };
    assert!(!psi.read_bit(bit(0), high));
    psi.write_bit(bit(0), true);
    assert!(psi.read_bit(bit(0), high));
    psi.advance(64);
    assert_eq!((psi.decrementer, psi.read_register), (99, 100));
    psi.write_bit(bit(0), true);
    assert_eq!(psi.read_register, 100);
    psi.write_bit(bit(0), false);
    assert_eq!((psi.control_and_masks, psi.read_register), (0, 99));
    psi.advance(64);
    assert_eq!(psi.read_register, 98);
}

#[test]
fn masks_and_pending() {
    for n in 1..=15u16 {
        for value in [false, true] {
            let before = Psi {
                control_and_masks: 0x5554,
                pending: 1,
                load: 9,
                ..Psi::BLANK
            };
            let mut psi = before;
            psi.write_bit(bit(n), value);
            let mask = if value {
                0x5554 | 1 << n
            } else {
                0x5554 & !(1 << n)
            };
            let pending = u16::from(n != 3); // bit 3 clears it whichever value is written
            assert_eq!(
                psi,
                Psi {
                    control_and_masks: mask,
                    pending,
                    ..before
                }
            );
        }
    }
}

#[test]
fn load_bits() {
    for n in 1..=14u16 {
        for value in [false, true] {
            for load in [0u16, 0x1555, 0x2AAA, 0x3FFF] {
                let before = Psi {
                    control_and_masks: 0xFFFF,
                    load,
                    decrementer: 77,
                    read_register: 66,
                    phase: 33,
                    pending: 1,
                    ..Psi::BLANK
                };
                let mut psi = before;
                psi.write_bit(bit(n), value);
                let weight = 1 << (n - 1);
                let load = if value { load | weight } else { load & !weight };
                assert_eq!(
                    psi,
                    Psi {
                        load,
                        decrementer: load,
                        phase: 0,
                        ..before
                    }
                );
            }
        }
    }
}

#[test]
fn read_register_bits() {
    let mut psi = Psi {
        control_and_masks: 1,
        read_register: 0x2A95,
        decrementer: 0x1111,
        ..Psi::BLANK
    };
    for n in 1..=14u16 {
        assert_eq!(psi.read_bit(bit(n), Pins(QUIET)), 0x2A95 & 1 << (n - 1) != 0);
    }
    assert_eq!(psi.read_register, 0x2A95);
}

#[test]
fn bit_15_in_clock_mode() {
    let before = Psi {
        control_and_masks: 0x8001,
        directions: 0xFFFF,
        latches: 0x1234,
        load: 5,
        decrementer: 4,
        read_register: 3,
        phase: 2,
        pending: 1,
    };
    let mut psi = before;
    psi.write_bit(bit(15), true);
    assert_eq!(psi, before);
    psi.write_bit(bit(15), false);
    assert_eq!(
        psi,
        Psi {
            directions: 0,
            latches: 0,
            ..before
        }
    );
    // With control 0 it is mask 15.
    let before = Psi {
        control_and_masks: 0x8000,
        read_register: 4,
        ..before
    };
    let mut psi = before;
    psi.write_bit(bit(15), false);
    assert_eq!(
        psi,
        Psi {
            control_and_masks: 0,
            ..before
        }
    );
    // Reading: any enabled request, the clock's too.
    let mut psi = Psi {
        control_and_masks: 0x0009,
        load: 5,
        pending: 1,
        ..Psi::BLANK
    };
    assert!(psi.read_bit(bit(15), Pins(QUIET)));
    psi.pending = 0;
    assert!(!psi.read_bit(bit(15), Pins(low(&[3]))));
    psi.load = 0;
    assert!(psi.read_bit(bit(15), Pins(low(&[3]))));
    assert!(!psi.read_bit(bit(15), Pins(low(&[4]))));
}

#[test]
fn ports() {
    for p in 0..=15u16 {
        for value in [false, true] {
            let mut psi = Psi {
                control_and_masks: 1,
                decrementer: 8,
                read_register: 5,
                ..Psi::BLANK
            };
            psi.write_bit(bit(16 + p), value);
            assert_eq!((psi.directions, psi.latches), (1 << p, u16::from(value) << p));
            // The access refreshed the read register; control stays.
            assert_eq!((psi.read_register, psi.control_and_masks), (8, 1));
            // The pin now has the latch's level whatever is recorded.
            for record in [0, QUIET] {
                assert_eq!(psi.read_bit(bit(16 + p), Pins(record)), value);
            }
        }
        let mut psi = Psi {
            control_and_masks: 1,
            decrementer: 8,
            read_register: 5,
            ..Psi::BLANK
        };
        psi.read_bit(bit(16 + p), Pins(QUIET));
        assert_eq!(
            (psi.read_register, psi.control_and_masks, psi.directions),
            (8, 1, 0)
        );
    }
}

#[test]
fn bits_that_are_not_the_psis() {
    let before = Psi {
        control_and_masks: 1,
        decrementer: 8,
        read_register: 5,
        ..Psi::BLANK
    };
    for n in 32..2048u16 {
        // Weight 16 of the bit number is S0; nothing else is seen of the access.
        let after = Psi {
            read_register: if n / 16 % 2 == 1 { 8 } else { 5 },
            ..before
        };
        let mut psi = before;
        assert!(psi.read_bit(bit(n), Pins(0)));
        assert_eq!(psi, after);
        for value in [false, true] {
            let mut psi = before;
            psi.write_bit(bit(n), value);
            assert_eq!(psi, after);
        }
    }
}

// ---- the CRU instructions ----

#[test]
fn single_bits_through_instructions() {
    // R12 is twice the bit number; its lowest bit and its high weights do not count.
    for r12 in [16u16, 17, 0x1010, 0xF011] {
        let mut b = Bench::with(&[0x1D08, 0x1FF8 /* TB -8 */, 0x1E08]);
        b.set_r(12, r12); // bit 8
        b.state.st = 0xFFFF & !EQ;
        b.step(); // SBO 8: bit 16 is P0
        assert_eq!((b.state.psi.directions, b.state.psi.latches), (1, 1));
        assert_eq!(b.state.st, 0xFFFF & !EQ);
        b.run(&[0]); // TB of the control bit, pins low
        assert_eq!(b.state.st, 0xFFFF & !EQ);
        b.step(); // SBZ 8
        assert_eq!((b.state.psi.directions, b.state.psi.latches), (1, 0));
    }
    // Wraps at 2048: base 2047, displacement 1 is bit 0; base 0, displacement -128 is 1920.
    let mut b = Bench::with(&[0x1D01]);
    b.set_r(12, 2 * 2047);
    b.step();
    assert!(b.state.psi.control());
    let mut b = Bench::with(&[0x1F80]);
    b.step();
    assert_eq!(b.state.st, EQ); // other bits read 1
                                // TB of a pin that is low clears EQ alone.
    let mut b = Bench::with(&[0x1F05]);
    b.state.st = 0xFFFF;
    b.run(&[low(&[5])]);
    assert_eq!(b.state.st, 0xFFFF & !EQ);
}

#[test]
fn load_cru_widths_and_status() {
    for count in 0..16u16 {
        let bits = if count == 0 { 16 } else { count };
        for value in [0u16, 0x0100, 0x8000, 0x00FF, 0x7F01, 0xFFFF, 0x0301] {
            for before in [0u16, 0xFFFF] {
                let mut b = Bench::with(&[0x3001 | count << 6]);
                b.set_r(1, value);
                b.set_r(12, 32); // P0 upwards
                b.state.st = before;
                b.step();
                let all = ((1u32 << bits) - 1) as u16;
                let operand = if bits <= 8 { value >> 8 } else { value };
                assert_eq!(b.state.psi.directions, all);
                assert_eq!(b.state.psi.latches, operand & all);
                // Judged whole, not only the bits sent.
                let negative = if bits <= 8 {
                    operand & 0x80 != 0
                } else {
                    operand & 0x8000 != 0
                };
                let mut st = before & !(LGT | AGT | EQ);
                if operand == 0 {
                    st |= EQ;
                } else {
                    st |= LGT;
                    if !negative {
                        st |= AGT;
                    }
                }
                if bits <= 8 {
                    st &= !OP;
                    if operand.count_ones() % 2 == 1 {
                        st |= OP;
                    }
                }
                assert_eq!(b.state.st, st);
            }
        }
    }
}

#[test]
fn store_cru_widths_and_status() {
    for count in 0..16u16 {
        let bits = if count == 0 { 16 } else { count };
        for levels in [0u16, 0xFFFF, 0x8000, 0x0080, 0x0001, 0x00FF, 0x5A5A] {
            for before in [0u16, 0xFFFF] {
                let mut b = Bench::with(&[0x3401 | count << 6]);
                b.set_r(1, 0xA5C3);
                b.set_r(12, 32);
                b.state.psi.directions = 0xFFFF;
                b.state.psi.latches = levels;
                b.state.st = before;
                b.step();
                let result = levels & ((1u32 << bits) - 1) as u16;
                let negative = if bits <= 8 {
                    result & 0x80 != 0
                } else {
                    result & 0x8000 != 0
                };
                if bits <= 8 {
                    assert_eq!(b.r(1), result << 8 | 0xC3);
                } else {
                    assert_eq!(b.r(1), result);
                }
                let mut st = before & !(LGT | AGT | EQ);
                if result == 0 {
                    st |= EQ;
                } else {
                    st |= LGT;
                    if !negative {
                        st |= AGT;
                    }
                }
                if bits <= 8 {
                    st &= !OP;
                    if result.count_ones() % 2 == 1 {
                        st |= OP;
                    }
                }
                assert_eq!(b.state.st, st);
            }
        }
    }
}

#[test]
fn transfers_wrap_and_pass_beyond_the_psi() {
    // LDCR R1,16 from bit 2040: the last eight bits are the PSI's 0 to 7.
    let mut b = Bench::with(&[0x3001]);
    b.set_r(1, 0x5400); // bits 0 to 7 get 54h: control 0, masks 2, 4, 6
    b.set_r(12, 2 * 2040);
    b.step();
    assert_eq!(
        b.state.psi,
        Psi {
            control_and_masks: 0x0054,
            ..Psi::BLANK
        }
    );
    // STCR R1,16 from bit 24: P8 to P15, then ones.
    let mut b = Bench::with(&[0x3401]);
    b.set_r(12, 2 * 24);
    b.run(&[0]);
    assert_eq!(b.r(1), 0xFF00);
    // STCR R1,16 from bit 2032+8.
    let mut b = Bench::with(&[0x3401]);
    b.set_r(12, 2 * 2040);
    b.run(&[0]);
    assert_eq!(b.r(1), 0x00FF);
}

#[test]
fn load_cru_goes_upwards_with_control_taking_effect_at_once() {
    // LDCR of 16 bits with bit 0 = 1 and bit 15 = 0: load, then all ports inputs.
    let mut b = Bench::with(&[0x3001]);
    b.set_r(1, 0x7A13);
    b.state.psi.directions = 0x00FF;
    b.state.psi.latches = 0x0012;
    b.state.psi.phase = 40;
    b.step();
    let psi = b.state.psi;
    assert_eq!(
        (psi.control_and_masks, psi.load, psi.decrementer, psi.phase),
        (1, 0x3D09, 0x3D09, 0)
    );
    assert_eq!((psi.directions, psi.latches, psi.read_register), (0, 0, 0));
    // LDCR of 16 bits with bit 0 = 0: the masks, all 15; leaving clock mode refreshes.
    let mut b = Bench::with(&[0x3001]);
    b.set_r(1, 0x8246);
    b.state.psi.control_and_masks = 0x0101;
    b.state.psi.decrementer = 12;
    b.step();
    assert_eq!(
        (b.state.psi.control_and_masks, b.state.psi.read_register),
        (0x8246, 12)
    );
}

#[test]
fn r12_is_read_after_the_operand() {
    // LDCR *R12+,9: the operand is at the old R12, the base is the new one.
    let mut b = Bench::with(&[0x327C]);
    b.set_r(12, 30);
    b.put(30, 0x01FF);
    b.step();
    assert_eq!(b.r(12), 32);
    assert_eq!((b.state.psi.directions, b.state.psi.latches), (0x01FF, 0x01FF));
    // STCR *R12+,9
    let mut b = Bench::with(&[0x367C]);
    b.set_r(12, 30);
    b.state.psi.directions = 0xFFFF;
    b.state.psi.latches = 0x0155;
    b.step();
    assert_eq!((b.r(12), b.word(30)), (32, 0x0155));
    // STCR *R12+,8: the increment is 1, so R12 is 31 and the bit is still 15.
    let mut b = Bench::with(&[0x363C]);
    b.set_r(12, 30);
    b.put(30, 0xFFFF);
    b.run(&[low(&[15])]);
    assert_eq!((b.r(12), b.word(30)), (31, 0xFEFF));
    // LDCR *R1+,8 takes a byte at an odd address; increment 1.
    let mut b = Bench::with(&[0x3231]);
    b.set_r(1, 0x0401);
    b.set_r(12, 32);
    b.put(0x0400, 0x12A5);
    b.step();
    assert_eq!(
        (b.r(1), b.state.psi.latches, b.state.psi.directions),
        (0x0402, 0xA5, 0xFF)
    );
    // STCR to R12 itself: base from the old R12.
    let mut b = Bench::with(&[0x340C]);
    b.set_r(12, 32);
    b.run(&[0]);
    assert_eq!((b.r(12), b.state.st), (0, EQ));
}

#[test]
fn reads_of_ports_refresh_the_read_register_in_clock_mode() {
    // STCR R1,16 from bit 8 with control 1: bits 9 to 15 old, then 16 refreshes.
    let mut b = Bench::with(&[0x3401, 0x3402]);
    b.state.psi.control_and_masks = 1;
    b.state.psi.decrementer = 0x1FFF;
    b.state.psi.read_register = 0;
    b.set_r(12, 2 * 8);
    b.step();
    assert_eq!(b.r(1), 0xFF00);
    assert_eq!(b.state.psi.read_register, 0x1FFF);
    // TB of bit 31 too, and SBO of a port.
    for word in [0x1F1F, 0x1D1F, 0x1E10] {
        let mut b = Bench::with(&[word]);
        b.state.psi.control_and_masks = 1;
        b.state.psi.decrementer = 55;
        b.step();
        assert_eq!(
            (b.state.psi.read_register, b.state.psi.control_and_masks),
            (55, 1)
        );
    }
    // Other accesses do not: TB 14, TB 15, SBO 15, TB 32, SBO 0.
    for word in [0x1F0E, 0x1F0F, 0x1D0F, 0x1F20, 0x1D00] {
        let mut b = Bench::with(&[word]);
        b.state.psi.control_and_masks = 1;
        b.state.psi.decrementer = 55;
        b.step();
        assert_eq!(b.state.psi.read_register, 0);
    }
}
