//! The clock advanced from many starts, well formed or not. The counts of cycles:
//! in the first part about half lie around the places where it becomes 0, and the
//! others are a record's or any 16-bit number of ticks; in the second part they
//! are of all 32 bits.

use std::fmt::Write;

use super::{psi, Sum};
use crate::psi::Psi;
use crate::seeds::Seeds;

/// Lines of the first part of the output, and cases of one of them.
const NEAR_LINES: u32 = 32;
const NEAR_CASES: u32 = 512;
/// The same of the second part.
const FAR_LINES: u32 = 40;
const FAR_CASES: usize = 64;

/// One of the marked numbers, one below 16, one of the clock's 14 bits, or any.
fn number(seeds: &mut Seeds, marked: [u16; 4]) -> u16 {
    match seeds.below(8) {
        4 => seeds.below(16),
        5 | 6 => seeds.below(16384),
        7 => seeds.word(),
        n => marked[usize::from(n)],
    }
}

fn any_load(seeds: &mut Seeds) -> u16 {
    number(seeds, [0, 1, 2, 16383])
}

/// A PSI with this load. The read register is not made to follow.
fn start(seeds: &mut Seeds, load: u16) -> Psi {
    let mut start = psi(seeds);
    start.load = load;
    start.decrementer = number(seeds, [0, 1, load, load.wrapping_add(1)]);
    if seeds.once_in(8) {
        start.pending = seeds.word();
    }
    if seeds.once_in(8) {
        start.phase = seeds.word();
    }
    start
}

/// Ticks until the clock is 0, the first time or up to three rounds later, or at
/// most two less or one more.
fn ticks_to_edge(seeds: &mut Seeds, start: &Psi) -> u32 {
    let largest = if start.load == 0 {
        Psi::CLOCK_MAX
    } else {
        start.load
    };
    let rounds = u32::from(seeds.below(4));
    let ticks = u32::from(start.decrementer) + rounds * (u32::from(largest) + 1);
    (ticks + u32::from(seeds.below(4))).saturating_sub(2)
}

/// Cycles as a record has them, or of up to 65535 ticks, or up to an edge.
fn near_count(seeds: &mut Seeds, start: &Psi) -> u32 {
    let ticks = match seeds.below(4) {
        0 => return u32::from(seeds.below(1024)),
        1 => u32::from(seeds.word()),
        _ => ticks_to_edge(seeds, start),
    };
    ticks * 64 + u32::from(seeds.below(64))
}

/// Cycles of any number, some of the last ones.
fn far_count(seeds: &mut Seeds) -> u32 {
    if seeds.once_in(4) {
        return u32::MAX - u32::from(seeds.below(256));
    }
    let high = u32::from(seeds.word());
    high << 16 | u32::from(seeds.word())
}

/// A case of the first part: whether pending became 1.
fn near(seeds: &mut Seeds, sum: &mut Sum) -> bool {
    let load = any_load(seeds);
    let before = start(seeds, load);
    let count = near_count(seeds, &before);
    let mut after = before;
    after.advance(count);
    sum.mix(count);
    sum.mix_psi(&after);
    before.pending != 1 && after.pending == 1
}

/// The PSI after each count: one walk through all of them, the lowest first.
fn after_each(start: Psi, counts: &[u32]) -> Vec<Psi> {
    let mut order: Vec<usize> = (0..counts.len()).collect();
    order.sort_by_key(|&n| counts[n]);
    let mut after = vec![start; counts.len()];
    let mut walker = start;
    let mut passed = 0;
    for n in order {
        walker.advance(counts[n] - passed);
        passed = counts[n];
        after[n] = walker;
    }
    after
}

/// A line of the second part: its start, its last case, and the sum of all.
fn far_line(seeds: &mut Seeds, line: u32) -> String {
    let load = match line % 5 {
        0 => 0,
        1 => 1,
        2 => 2,
        3 => 16383,
        _ => seeds.below(16384),
    };
    let start = start(seeds, load);
    let counts: Vec<u32> = (0..FAR_CASES).map(|_| far_count(seeds)).collect();
    let ends = after_each(start, &counts);
    let mut sum = Sum::default();
    for (&count, end) in counts.iter().zip(&ends) {
        sum.mix(count);
        sum.mix_psi(end);
    }
    let count = counts[FAR_CASES - 1];
    let end = &ends[FAR_CASES - 1];
    format!(
        "{} {} {} {count} {} {} {} {} {:08x}\n",
        start.load,
        start.decrementer,
        start.phase,
        end.decrementer,
        end.read_register,
        end.phase,
        end.pending,
        sum.0
    )
}

pub fn expect() -> String {
    let mut text = String::new();
    let mut seeds = Seeds(9901);
    for line in 0..NEAR_LINES {
        let mut sum = Sum::default();
        let mut made_pending = 0;
        for _ in 0..NEAR_CASES {
            if near(&mut seeds, &mut sum) {
                made_pending += 1;
            }
        }
        let _ = writeln!(text, "{} {made_pending} {:08x}", line * NEAR_CASES, sum.0);
    }
    for line in 0..FAR_LINES {
        text += &far_line(&mut seeds, line);
    }
    text
}

#[cfg(test)]
mod walk_tests;
