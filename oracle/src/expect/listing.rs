//! Lines of the listing: some to be read, then sums over every word in the first
//! place and in the second, and last with some lent parts of wrong lengths.

use std::fmt::Write;

use super::{fill, put_word, Sum};
use crate::seeds::Seeds;
use crate::{list, Answer, MEMORY_SIZE, TEXT_SIZE};

/// Words that share a line of sums.
const WORDS: u16 = 2048;
/// Lines of a pass over all words.
const PASS: u16 = 32;
const LINES: u16 = 256;
/// The one pass with refused calls.
const REFUSALS: u16 = 7;

/// The first words of the readable lines: from, below, in steps of.
const RANGES: [(u32, u32, u32); 4] = [
    (0x0000, 0x0800, 0x0020),
    (0x0800, 0x2000, 0x0100),
    (0x2000, 0x4000, 0x0400),
    (0x4000, 0x1_0000, 0x1000),
];

/// The memory with two bytes more, and the longest buffer.
struct Lent {
    memory: [u8; MEMORY_SIZE + 2],
    text: [u8; TEXT_SIZE + 16],
}

/// What a line of sums tells.
#[derive(Default)]
struct Course {
    accepted: u32,
    length: usize,
    sum: Sum,
}

/// A line or more for each operation.
fn readable() -> String {
    let mut memory = [0; MEMORY_SIZE];
    let mut lines = String::new();
    let mut k = 0;
    for (from, below, step) in RANGES {
        for code in (from..below).step_by(step as usize) {
            let word = code + k * 37 % step;
            put_word(&mut memory, 0x0100, word as u16);
            put_word(&mut memory, 0x0102, 0x0200);
            put_word(&mut memory, 0x0104, 0x0302);
            let mut text = [0; TEXT_SIZE];
            let listed = list(&memory, 0x0100, &mut text);
            lines += &String::from_utf8_lossy(&text[..listed.length]);
            lines.push('\n');
            k += 1;
        }
    }
    lines
}

fn address(seeds: &mut Seeds, pass: u16) -> u16 {
    match pass {
        // at the memory's end, at the last address
        1 => 0x3FFC + seeds.below(4),
        2 => 0xFFFC + seeds.below(4),
        _ => seeds.word(),
    }
}

/// The three words at the address.
fn words(seeds: &mut Seeds, pass: u16, value: u16) -> [u16; 3] {
    match pass {
        4 => [value.wrapping_mul(40503), seeds.word(), seeds.word()],
        // MOV with two indexed operands
        5 => [0xC8A1, value, 65535 - value],
        // LI R5
        6 => [0x0205, value, seeds.word()],
        _ => [value, seeds.word(), seeds.word()],
    }
}

fn memory_length(seeds: &mut Seeds, pass: u16) -> usize {
    if pass == REFUSALS && seeds.once_in(4) {
        usize::from(seeds.below(16387))
    } else {
        MEMORY_SIZE
    }
}

fn text_length(seeds: &mut Seeds, pass: u16) -> usize {
    let length = if pass == REFUSALS && seeds.once_in(3) {
        seeds.below(48)
    } else {
        48 + seeds.below(17)
    };
    usize::from(length)
}

impl Lent {
    fn one(&mut self, seeds: &mut Seeds, pass: u16, value: u16, course: &mut Course) {
        let address = address(seeds, pass);
        let mut at = address;
        for word in words(seeds, pass, value) {
            put_word(&mut self.memory, at, word);
            at = at.wrapping_add(2);
        }
        let memory = &self.memory[..memory_length(seeds, pass)];
        let text = &mut self.text[..text_length(seeds, pass)];
        fill(text, seeds);

        let listed = list(memory, address, text);
        course.sum.mix(u32::from(listed.number));
        course.sum.mix(listed.length as u32);
        course.sum.mix(u32::from(listed.words));
        course.sum.mix_bytes(text);
        if listed.number == Answer::ACCEPTED {
            course.accepted += 1;
            course.length += listed.length;
        }
    }
}

pub fn expect() -> String {
    let mut text = readable();
    let mut lent = Lent {
        memory: [0; MEMORY_SIZE + 2],
        text: [0; TEXT_SIZE + 16],
    };
    let mut seeds = Seeds(9900);
    for line in 0..LINES {
        fill(&mut lent.memory[..MEMORY_SIZE], &mut seeds);
        let first = line % PASS * WORDS;
        let mut course = Course::default();
        for i in 0..WORDS {
            lent.one(&mut seeds, line / PASS, first + i, &mut course);
        }
        let _ = writeln!(
            text,
            "{first} {} {} {:08x}",
            course.accepted, course.length, course.sum.0
        );
    }
    text
}
