//! What a step was: the answer of each step, and the run's answer of its last.
mod common;
use common::*;
use oracle::{power_up, run, Answer, State, Step, MEMORY_SIZE};

/// A bench with these words at the PC, and all requests let in.
fn open(words: &[u16]) -> Bench {
    let mut b = Bench::with(words);
    b.state.st = 0x000F;
    b.state.psi.control_and_masks = 0xFFFE;
    b
}

/// What one step was, asked of the step and of a run; the count follows from it.
fn one(mut b: Bench, record: u32) -> Step {
    let mut memory = b.memory.clone();
    let answer = run(&mut memory, b.state, &[record], 1, 1);
    let step = b.kind(record);
    assert_eq!((answer.number, answer.steps, answer.last), (0, 1, step));
    assert_eq!((answer.state, memory), (b.state, b.memory));
    let counted = matches!(step, Step::Unassigned(_));
    assert_eq!(answer.unassigned, usize::from(counted));
    step
}

#[test]
fn numbers_and_names() {
    let expected = [
        (Step::Nothing, 0, 0, "none"),
        (Step::Reset, 1, 0, "reset"),
        (Step::Load, 2, 0, "load"),
        (Step::Level(1), 3, 1, "level1"),
        (Step::Level(2), 3, 2, "level2"),
        (Step::Level(3), 3, 3, "level3"),
        (Step::Level(4), 3, 4, "level4"),
        (Step::Instruction, 4, 0, "run"),
        (Step::Idle, 5, 0, "idle"),
        (Step::Unassigned(0), 6, 0, "word"),
        (Step::Unassigned(0xFFFE), 6, 0xFFFE, "word"),
    ];
    for (step, kind, number, name) in expected {
        assert_eq!(
            (step.kind(), step.number(), step.name().as_str()),
            (kind, number, name)
        );
    }
}

#[test]
fn entries_by_the_pins() {
    // Whatever the word at the PC would be, and from an idle machine too.
    for word in [0x1000, 0x0000, 0x0340, 0x0420] {
        for flags in [0, 1] {
            let after = |record| {
                let mut b = open(&[word]);
                b.state.flags = flags;
                one(b, record)
            };
            assert_eq!(after(low(&[1])), Step::Reset);
            assert_eq!(after(low(&[8])), Step::Reset);
            assert_eq!(after(low(&[2])), Step::Load);
            assert_eq!(after(low(&[10])), Step::Load);
            for level in 1..=4 {
                assert_eq!(after(low(&[level + 2])), Step::Level(level as u16));
                assert_eq!(after(low(&[level + 10])), Step::Level(level as u16));
            }
        }
    }
    // A level above the mask is not entered: the step is what it is without it.
    for (flags, word, step) in [
        (0, 0x1000, Step::Instruction),
        (0, 0x0000, Step::Unassigned(PC)),
        (1, 0x0000, Step::Idle),
    ] {
        let mut b = open(&[word]);
        b.state.st = 0x0001;
        b.state.flags = flags;
        assert_eq!(one(b, low(&[4])), step);
    }
    // Right after an entry neither LOAD nor a level is sampled, but a reset is.
    for (n, step) in [
        (1, Step::Reset),
        (2, Step::Unassigned(PC)),
        (3, Step::Unassigned(PC)),
    ] {
        let mut b = open(&[0x0000]);
        b.state.flags = 2;
        assert_eq!(one(b, low(&[n])), step);
    }
}

#[test]
fn instructions() {
    for words in [
        [0xA081, 0],      // A R1,R2
        [0x0340, 0],      // IDLE
        [0x0360, 0],      // RSET
        [0x0380, 0],      // RTWP
        [0x03A0, 0],      // CKON
        [0x03C0, 0],      // CKOF
        [0x03E0, 0],      // LREX
        [0x0420, 0x0800], // BLWP @0800
        [0x2C20, 0x0800], // XOP @0800,0
        [0x10FF, 0],      // JMP to itself
        [0x04A0, 0x0800], // X @0800, a jump to the next word
    ] {
        let mut b = open(&words);
        b.put(0x0800, 0x1000);
        assert_eq!(one(b, QUIET), Step::Instruction, "{words:04X?}");
    }
    // The same through X.
    for word in [0xA081, 0x0340, 0x0380, 0x03E0, 0x0402, 0x2C02, 0x10FF] {
        let mut b = open(&[0x0483]);
        b.set_r(3, word);
        assert_eq!(one(b, QUIET), Step::Instruction, "{word:04X}");
    }
}

#[test]
fn every_fetched_word() {
    let mut b = Bench::new();
    let start = b.state;
    for word in 0..=0xFFFF {
        // What X leads to is not known here.
        if word & 0xFFC0 == 0x0480 {
            continue;
        }
        let expected = match word {
            0x0000..=0x01FF | 0x0320..=0x033F | 0x0780..=0x07FF | 0x0C00..=0x0FFF => Step::Unassigned(PC),
            _ => Step::Instruction,
        };
        for first in [word, 0x0481] {
            b.state = start;
            b.program(&[first]);
            b.set_r(1, word);
            assert_eq!(b.kind(QUIET), expected, "{word:04X} by {first:04X}");
        }
    }
}

#[test]
fn idling() {
    let mut b = open(&[0x0340, 0x0000]);
    assert_eq!(b.kind(QUIET), Step::Instruction);
    assert_eq!(b.kind(QUIET), Step::Idle);
    assert_eq!(b.kind(cycles(1023)), Step::Idle);
    assert_eq!(b.run(&[QUIET; 3]).last, Step::Idle);
    assert_eq!(b.run(&[QUIET, low(&[4])]).last, Step::Level(2));
}

#[test]
fn the_pc_of_an_unassigned_word() {
    // Fetched; the PC wraps, and all its 16 bits are given.
    for pc in [PC, 0, 0x4000, 0xFFFE] {
        let mut b = Bench::new();
        b.state.pc = pc;
        b.program(&[0x0FFF]);
        assert_eq!(one(b, QUIET), Step::Unassigned(pc));
    }
    // Through X, in a register, with a word of X's own, and with two X.
    let mut b = Bench::with(&[0x0481]);
    b.set_r(1, 0x0C00);
    assert_eq!(one(b, QUIET), Step::Unassigned(PC));
    let mut b = Bench::with(&[0x04A0, 0x0800]);
    b.put(0x0800, 0x0320);
    assert_eq!(b.kind(QUIET), Step::Unassigned(PC));
    assert_eq!(b.state.pc, PC + 4);
    let mut b = Bench::with(&[0x04A0, 0x0800, 0x0802]);
    b.put(0x0800, 0x04A0);
    b.put(0x0802, 0x0780);
    assert_eq!(b.kind(QUIET), Step::Unassigned(PC));
    assert_eq!(b.state.pc, PC + 6);
}

#[test]
fn the_ninth_x() {
    let mut b = Bench::with(&[0x0481]);
    b.set_r(1, 0x0481);
    assert_eq!(one(b, QUIET), Step::Unassigned(PC));
    // With words of their own: eight X take eight, the ninth takes none.
    for (links, step) in [(8, Step::Instruction), (9, Step::Unassigned(PC))] {
        let mut words = vec![0x04A0];
        words.extend((0..links).map(|i| 0x0800 + 2 * i));
        let mut b = Bench::with(&words);
        for i in 0..links - 1 {
            b.put(0x0800 + 2 * i, 0x04A0);
        }
        b.put(0x0800 + 2 * (links - 1), 0x0585); // INC R5
        assert_eq!(b.kind(QUIET), step);
        assert_eq!(b.state.pc, PC + 2 + 2 * 8);
    }
}

#[test]
fn the_run_hands_on_the_last() {
    // A jump to the next word, an unassigned word, IDLE.
    let b = open(&[0x1000, 0x0000, 0x0340]);
    let pins = [QUIET, QUIET, QUIET, QUIET, low(&[4]), low(&[1])];
    let expected = [
        Step::Nothing,
        Step::Instruction,
        Step::Unassigned(PC + 2),
        Step::Instruction,
        Step::Idle,
        Step::Level(2),
        Step::Reset,
    ];
    for (steps, last) in expected.into_iter().enumerate() {
        let answer = run(&mut b.memory.clone(), b.state, &pins, steps, 1);
        assert_eq!((answer.steps, answer.last), (steps, last));
        assert_eq!(answer.unassigned, usize::from(steps >= 2));
    }
}

#[test]
fn the_stop_address_keeps_the_last() {
    let b = open(&[0x1000, 0x0000, 0x1000]);
    let after = |stop| {
        let answer = run(&mut b.memory.clone(), b.state, &[QUIET; 4], 4, stop);
        (answer.steps, answer.last)
    };
    assert_eq!(after(PC), (0, Step::Nothing));
    assert_eq!(after(PC + 2), (1, Step::Instruction));
    assert_eq!(after(PC + 4), (2, Step::Unassigned(PC + 2)));
    // An entry to the stop address.
    let mut b = open(&[0x1000]);
    b.put(0x000A, 0x0600);
    let answer = run(&mut b.memory, b.state, &[low(&[4]); 4], 4, 0x0600);
    assert_eq!((answer.steps, answer.last), (1, Step::Level(2)));
}

#[test]
fn nothing_where_no_step_is_done() {
    let mut b = open(&[0x0000]);
    let bad = State { flags: 3, ..b.state };
    let refused = [
        run(&mut b.memory[..16383], b.state, &[QUIET], 1, 1),
        run(&mut b.memory, bad, &[QUIET], 1, 1),
        run(&mut b.memory, b.state, &[QUIET], 2, 1),
    ];
    for (answer, number) in refused.into_iter().zip(1..) {
        assert_eq!((answer.number, answer.last), (number, Step::Nothing));
    }
    // No steps asked; at the stop address already, with a reset requested too.
    let none = [
        run(&mut b.memory, b.state, &[QUIET], 0, 1),
        run(&mut b.memory, b.state, &[QUIET], 1, PC),
        run(&mut b.memory, b.state, &[0], 1, PC),
    ];
    for answer in none {
        assert_eq!(answer, Answer::accepted(b.state));
        assert_eq!(answer.last, Step::Nothing);
    }
    // Power up is no step.
    assert_eq!(power_up(&mut [0; MEMORY_SIZE]).last, Step::Nothing);
}
