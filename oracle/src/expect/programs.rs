//! Memories that hold programs.

use super::{address, put_word};
use crate::seeds::Seeds;
use crate::{Memory, MEMORY_SIZE};

/// LI R12, whose next word is chosen to suit.
const LOAD_BASE: u16 = 0x020C;
/// LIMI, whose next word is chosen to suit.
const LOAD_MASK: u16 = 0x0300;

/// An instruction that changes the workspace, the mask or the flow.
fn control(seeds: &mut Seeds) -> u16 {
    match seeds.below(8) {
        0..=1 => LOAD_MASK,
        2 => 0x02E0,
        3 => 0x0340 + seeds.below(32),
        4 => 0x0360 + seeds.below(160),
        5 => 0x0400 + seeds.below(64),
        _ => 0x0380,
    }
}

/// A jump, forwards or back by at most 16 words.
fn jump(seeds: &mut Seeds) -> u16 {
    let condition = seeds.below(13) * 256;
    let places = seeds.below(16);
    if seeds.once_in(2) {
        0x1000 + condition + places
    } else {
        0x10F0 + condition + places
    }
}

/// The first word of an instruction.
fn instruction(seeds: &mut Seeds) -> u16 {
    match seeds.below(16) {
        0 => 0x0200 + seeds.below(512),
        1 => 0x0400 + seeds.below(896),
        2 => 0x0480 + seeds.below(64),
        3 => 0x0800 + seeds.below(1024),
        4 => jump(seeds),
        5 => single_cru_bit(seeds),
        6 => 0x2000 + seeds.below(3072),
        7 => 0x2C00 + seeds.below(1024),
        8 => 0x3000 + seeds.below(2048),
        9 => 0x3800 + seeds.below(2048),
        10 => LOAD_BASE,
        11 => control(seeds),
        12 => seeds.word(),
        _ => 0x4000 + seeds.below(49152),
    }
}

/// The theme that reads the clock.
pub const CLOCK: u16 = 4;
/// The theme of entries and stores.
pub const STORES: u16 = 5;

/// An entry, a return, or an operation on two operands, the second one in memory.
fn entry_or_store(seeds: &mut Seeds) -> u16 {
    match seeds.below(8) {
        0 => 0x0400 + seeds.below(64),
        1 | 2 => 0x2C00 + seeds.below(1024),
        3 => 0x0380,
        _ => {
            let operation = seeds.below(12) * 4096;
            // *Rn, an address, *Rn+
            let mode = seeds.below(3) * 1024;
            0x4400 + operation + mode + seeds.below(1024)
        }
    }
}

/// A word of the program's theme: X, the CRU, STCR of 14 bits, entries and
/// stores, or any.
fn favoured(seeds: &mut Seeds, theme: u16) -> u16 {
    match theme {
        1 => 0x0480 + seeds.below(64),
        2 => 0x3000 + seeds.below(2048),
        3 => single_cru_bit(seeds),
        CLOCK => 0x3780 + seeds.below(64),
        STORES => entry_or_store(seeds),
        _ => address(seeds),
    }
}

/// SBO, SBZ or TB.
fn single_cru_bit(seeds: &mut Seeds) -> u16 {
    let operation = seeds.below(3) * 256;
    0x1D00 + operation + seeds.below(40)
}

/// A word that follows another.
fn next(seeds: &mut Seeds, before: u16, theme: u16) -> u16 {
    match before {
        LOAD_BASE => seeds.below(72),
        LOAD_MASK => seeds.below(16),
        _ if seeds.once_in(4) => favoured(seeds, theme),
        _ => instruction(seeds),
    }
}

/// Fills the memory with a program of a theme.
pub fn fill(memory: &mut Memory, seeds: &mut Seeds, theme: u16) {
    let mut word = 0;
    for address in (0..MEMORY_SIZE).step_by(2) {
        word = next(seeds, word, theme);
        put_word(memory, address as u16, word);
    }
}
