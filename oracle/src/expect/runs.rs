//! Runs of generated programs and of any bytes, with pin records, stop addresses
//! and refused calls. What each step was is asked in single steps on a copy.
//! Then single steps in clock mode, which tell where the read register moves, and
//! single steps with a read-only part, which tell what becomes of dropped stores.

use std::fmt::Write;

use super::{
    address, address_of, fill, programs, put_word, read_only, record, spoiled, state, sum_of, Sum, OLD_WAYS,
    WAYS,
};
use crate::seeds::Seeds;
use crate::{power_up, run, Answer, Memory, State, MEMORY_SIZE};

/// Lines of the first section.
const LINES: u32 = 128;
/// Memories of a line.
const MEMORIES: u32 = 16;
/// Calls on a memory.
const CALLS: u32 = 8;
const RECORDS: usize = 1024;

/// Lines of the section in clock mode.
const CLOCK_LINES: u32 = 64;
/// Memories of one of these lines.
const CLOCK_MEMORIES: u32 = 8;
/// Cases on one of these memories.
const CASES: u32 = 32;
/// Single steps of a case.
const STEPS: usize = 24;

/// Lines of the section with a read-only part.
const READ_ONLY_LINES: u32 = 64;
/// Memories of one of these lines.
const READ_ONLY_MEMORIES: u32 = 8;
/// Cases on one of these memories, of as many single steps.
const READ_ONLY_CASES: u32 = 16;

/// A stop address: odd, anywhere, or at or soon after `pc`.
fn stop(seeds: &mut Seeds, pc: u16) -> u16 {
    match seeds.below(8) {
        0 => address(seeds),
        1 => pc.wrapping_add(2 * seeds.below(8)),
        2 => seeds.word(),
        _ => 1,
    }
}

/// A run on a part of the memory that is too short.
fn run_short(memory: &mut Memory, seeds: &mut Seeds, state: State, records: &[u32], steps: usize) -> Answer {
    let size = usize::from(seeds.below(16384));
    run(&mut memory[..size], state, records, steps, 1)
}

/// A run that is refused, for one reason or for two. A state is spoiled in one of
/// the first `ways`.
fn run_refused(memory: &mut Memory, seeds: &mut Seeds, state: State, records: &[u32], ways: u16) -> Answer {
    let many = records.len() + 1 + usize::from(seeds.below(3));
    let way = seeds.below(ways);
    let bad = spoiled(seeds, state, way);
    match seeds.below(5) {
        0 => run_short(memory, seeds, state, records, 1),
        1 => run_short(memory, seeds, bad, records, many),
        2 => run(memory, bad, records, 1, 1),
        3 => run(memory, bad, records, many, 1),
        _ => run(memory, state, records, many, 1),
    }
}

/// The records of a memory.
fn records(seeds: &mut Seeds) -> Vec<u32> {
    let quiet = 4 << seeds.below(5);
    (0..RECORDS).map(|_| record(seeds, quiet)).collect()
}

/// All that a run answers.
fn mix_answer(sum: &mut Sum, answer: &Answer) {
    sum.mix(u32::from(answer.number));
    sum.mix(answer.steps as u32);
    sum.mix(answer.unassigned as u32);
    sum.mix_step(answer.last);
    sum.mix_state(&answer.state);
}

/// What the calls of a line came to.
#[derive(Default)]
struct Course {
    sum: Sum,
    steps: usize,
    unassigned: usize,
}

impl Course {
    /// A run in single steps, on a copy of the memory: what each step was, and
    /// the state that they lead to.
    fn single_steps(&mut self, memory: &Memory, state: State, records: &[u32], steps: usize, stop: u16) {
        let mut copy = *memory;
        let mut at = state;
        for i in 0..steps {
            let answer = run(&mut copy, at, &records[i..], 1, stop);
            if answer.steps == 0 {
                break;
            }
            self.sum.mix_step(answer.last);
            at = answer.state;
        }
        self.sum.mix_state(&at);
    }

    /// A call: mostly a run on the records from some place on, which is done in
    /// single steps first.
    fn call(&mut self, memory: &mut Memory, seeds: &mut Seeds, state: State, records: &[u32]) -> Answer {
        if seeds.once_in(8) {
            return run_refused(memory, seeds, state, records, OLD_WAYS);
        }
        let from = usize::from(seeds.below(256));
        let steps = usize::from(seeds.below(769));
        let stop = stop(seeds, state.pc);
        self.single_steps(memory, state, &records[from..], steps, stop);
        run(memory, state, &records[from..], steps, stop)
    }

    fn follow(&mut self, answer: &Answer) {
        mix_answer(&mut self.sum, answer);
        self.steps += answer.steps;
        self.unassigned += answer.unassigned;
    }

    /// One memory: its bytes, its records, its calls, and what they leave.
    fn one(&mut self, memory: &mut Memory, seeds: &mut Seeds) {
        if seeds.once_in(4) {
            fill(memory, seeds);
        } else {
            let theme = seeds.below(4);
            programs::fill(memory, seeds, theme);
        }
        let records = records(seeds);
        let mut at = if seeds.once_in(4) {
            power_up(memory).state
        } else if seeds.once_in(2) {
            state(seeds, 0)
        } else {
            // with both flags all calls are refused
            let flags = seeds.below(4);
            state(seeds, flags)
        };
        self.sum.mix_state(&at);
        for _ in 0..CALLS {
            let answer = self.call(memory, seeds, at, &records);
            self.follow(&answer);
            if answer.number == Answer::ACCEPTED {
                at = answer.state;
            }
        }
        self.sum.mix_bytes(memory);
    }
}

/// An even address: the first or the middle of 64 bytes, where its weight 32
/// begins, or any.
fn place(seeds: &mut Seeds) -> u16 {
    let base = seeds.word() / 64 * 64;
    match seeds.below(4) {
        0 => base,
        1 => base + 32,
        _ => base + seeds.below(32) * 2,
    }
}

/// A state in clock mode.
fn clock_state(seeds: &mut Seeds) -> State {
    let mut state = state(seeds, 0);
    state.wp = place(seeds);
    state.pc = place(seeds);
    state.psi.read_register = seeds.below(16384);
    state.psi.control_and_masks |= 1;
    state
}

/// What the steps of a line in clock mode came to.
#[derive(Default)]
struct Reading {
    sum: Sum,
    /// Steps that stayed in clock mode and moved the read register.
    moved: u32,
    /// Steps that stayed in clock mode and left it, with another value than the
    /// decrementer's.
    frozen: u32,
}

impl Reading {
    fn follow(&mut self, before: &State, answer: &Answer) {
        let after = &answer.state;
        self.sum.mix_step(answer.last);
        self.sum.mix_state(after);
        if before.psi.control() && after.psi.control() {
            if after.psi.read_register != before.psi.read_register {
                self.moved += 1;
            } else if after.psi.read_register != after.psi.decrementer {
                self.frozen += 1;
            }
        }
    }

    /// One case. STCR begins at the clock's lowest bit, as long as R12 stays.
    fn case(&mut self, memory: &mut Memory, seeds: &mut Seeds, records: &[u32]) {
        let mut at = clock_state(seeds);
        put_word(memory, address_of(at.wp, 12), 2);
        let from = usize::from(seeds.below(256));
        for i in from..from + STEPS {
            let answer = run(memory, at, &records[i..], 1, 1);
            assert_eq!((answer.number, answer.steps), (Answer::ACCEPTED, 1));
            self.follow(&at, &answer);
            at = answer.state;
        }
    }

    /// One memory: a program, its records, its cases, and what they leave.
    fn one(&mut self, memory: &mut Memory, seeds: &mut Seeds) {
        programs::fill(memory, seeds, programs::CLOCK);
        let records = records(seeds);
        for _ in 0..CASES {
            self.case(memory, seeds, &records);
        }
        self.sum.mix_bytes(memory);
    }
}

/// A state with a read-only part; half of them are in clock mode.
fn read_only_state(seeds: &mut Seeds, memory: &Memory) -> State {
    let mut state = state(seeds, 0);
    if seeds.once_in(2) {
        state.psi.read_register = seeds.below(16384);
        state.psi.control_and_masks |= 1;
    }
    state.read_only = read_only(seeds, &state, memory);
    state
}

/// What the cases of a line with a read-only part came to.
#[derive(Default)]
struct Dropping {
    sum: Sum,
    /// Cases that ended otherwise than without the read-only part.
    other: u32,
}

impl Dropping {
    /// One case: now and then a refused call first, then a run without the
    /// read-only part on a copy of the memory, then single steps with it.
    fn case(&mut self, memory: &mut Memory, seeds: &mut Seeds, records: &[u32]) {
        let mut at = read_only_state(seeds, memory);
        if seeds.once_in(4) {
            let answer = run_refused(memory, seeds, at, records, WAYS);
            mix_answer(&mut self.sum, &answer);
        }
        let from = usize::from(seeds.below(256));

        let mut copy = *memory;
        let mut free = at;
        free.read_only = State::NO_READ_ONLY;
        let answer = run(&mut copy, free, &records[from..], STEPS, 1);
        assert_eq!((answer.number, answer.steps), (Answer::ACCEPTED, STEPS));
        mix_answer(&mut self.sum, &answer);
        free = answer.state;

        for i in from..from + STEPS {
            let answer = run(memory, at, &records[i..], 1, 1);
            assert_eq!((answer.number, answer.steps), (Answer::ACCEPTED, 1));
            mix_answer(&mut self.sum, &answer);
            at = answer.state;
        }
        if at.wp != free.wp || at.pc != free.pc || at.st != free.st || *memory != copy {
            self.other += 1;
        }
    }

    /// One memory: a program, its records, its cases, and what they leave.
    fn one(&mut self, memory: &mut Memory, seeds: &mut Seeds) {
        programs::fill(memory, seeds, programs::STORES);
        let records = records(seeds);
        for _ in 0..READ_ONLY_CASES {
            self.case(memory, seeds, &records);
        }
        self.sum.mix_bytes(memory);
    }
}

/// Calls on memories of another size than the machine's.
fn other_sizes() -> String {
    let mut long = [0; MEMORY_SIZE + 1];
    let up = power_up(&mut long);
    let ran = run(&mut long, State::BLANK, &[0], 1, 1);
    let up_short = power_up(&mut [0; MEMORY_SIZE - 1]);
    let mut sum = Sum::default();
    sum.mix_state(&up.state);
    format!(
        "{} {} {} {:08x} {:08x}\n",
        up.number,
        ran.number,
        up_short.number,
        sum.0,
        sum_of(&long)
    )
}

pub fn expect() -> String {
    let mut text = other_sizes();
    let mut memory = [0; MEMORY_SIZE];
    let mut seeds = Seeds(9900);
    for _ in 0..LINES {
        let mut course = Course::default();
        for _ in 0..MEMORIES {
            course.one(&mut memory, &mut seeds);
        }
        let _ = writeln!(
            text,
            "{} {} {:08x}",
            course.steps, course.unassigned, course.sum.0
        );
    }
    for _ in 0..CLOCK_LINES {
        let mut reading = Reading::default();
        for _ in 0..CLOCK_MEMORIES {
            reading.one(&mut memory, &mut seeds);
        }
        let _ = writeln!(text, "{} {} {:08x}", reading.moved, reading.frozen, reading.sum.0);
    }
    for _ in 0..READ_ONLY_LINES {
        let mut dropping = Dropping::default();
        for _ in 0..READ_ONLY_MEMORIES {
            dropping.one(&mut memory, &mut seeds);
        }
        let _ = writeln!(text, "{} {:08x}", dropping.other, dropping.sum.0);
    }
    text
}
