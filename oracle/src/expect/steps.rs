//! Every word executed seven times, from different states and memories, two of
//! them through X, and the last two with a read-only part.

use std::fmt::Write;

use super::{address_of, fill, get_word, put_word, read_only, record, state, sum_of, value, Sum};
use crate::cpu::Machine;
use crate::psi::Pins;
use crate::seeds::Seeds;
use crate::{Memory, MEMORY_SIZE};

/// Words that share a line of the output.
const WORDS: u16 = 2048;
/// Lines of a pass over all words.
const PASS: u16 = 32;
const LINES: u16 = 224;
/// The passes through X.
const THROUGH: u16 = 4;
const THROUGH_AGAIN: u16 = 6;
/// The first pass with a read-only part.
const READ_ONLY: u16 = 5;

/// R12: around the PSI's bits, before the wrap of the bit number, or any.
fn base(seeds: &mut Seeds) -> u16 {
    match seeds.below(4) {
        0 => seeds.word(),
        1 => 0x0FC0 + seeds.below(64),
        _ => seeds.below(72),
    }
}

/// Makes `word` be reached through one to nine X, each in a register: the first
/// of them.
fn chained(memory: &mut Memory, seeds: &mut Seeds, wp: u16, word: u16) -> u16 {
    let first = seeds.below(16);
    let last = first + seeds.below(9);
    for n in first..last {
        put_word(memory, address_of(wp, n % 16), 0x0480 + (n + 1) % 16);
    }
    put_word(memory, address_of(wp, last % 16), word);
    0x0480 + first
}

/// Executes a word from a new state, by itself or through X, as its pass has it:
/// whether it was unassigned. All words are put in place before any part of the
/// memory is read-only.
fn one(memory: &mut Memory, seeds: &mut Seeds, word: u16, pass: u16, sum: &mut Sum) -> bool {
    let mut before = state(seeds, 0);
    let (wp, pc) = (before.wp, before.pc);
    for n in 0..16 {
        let content = if n == 12 { base(seeds) } else { value(seeds, wp) };
        put_word(memory, address_of(wp, n), content);
    }
    put_word(memory, pc, value(seeds, wp));
    put_word(memory, pc.wrapping_add(2), value(seeds, pc));
    let first = if pass == THROUGH || pass == THROUGH_AGAIN {
        chained(memory, seeds, wp, word)
    } else {
        word
    };
    if pass >= READ_ONLY {
        before.read_only = read_only(seeds, &before, memory);
    }
    let pins = Pins(record(seeds, 4));

    let mut machine = Machine::new(memory, before);
    machine.bus.pins = pins;
    // no word is fetched here, so the PC told is the state's own
    let step = machine.execute_fetched(first, pc);
    let after = machine.state();

    sum.mix_step(step);
    sum.mix_state(&after);
    for n in 0..16 {
        sum.mix(u32::from(get_word(memory, address_of(after.wp, n))));
    }
    step.is_unassigned()
}

pub fn expect() -> String {
    let mut text = String::new();
    let mut memory = [0; MEMORY_SIZE];
    let mut seeds = Seeds(9980);
    for line in 0..LINES {
        fill(&mut memory, &mut seeds);
        let first = line % PASS * WORDS;
        let mut sum = Sum::default();
        let mut unassigned = 0;
        for i in 0..WORDS {
            if one(&mut memory, &mut seeds, first + i, line / PASS, &mut sum) {
                unassigned += 1;
            }
        }
        let _ = writeln!(text, "{first} {unassigned} {:08x} {:08x}", sum.0, sum_of(&memory));
    }
    text
}
