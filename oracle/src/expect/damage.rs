//! Images of both editions, changed in one place or two, most of them with the
//! block's check word made right again.

use super::{spoiled, words_of, OLD_WAYS, WORD_WAYS};
use crate::seeds::Seeds;
use crate::{State, BLOCKS, BLOCK_SIZE};

/// How many kinds of damage there are.
pub const KINDS: u16 = 24;
/// This kind changes filler of block 0.
pub const FILLER: u16 = 19;
/// The last kind is none, and so are any further.
pub const NO_DAMAGE: u16 = KINDS - 1;
/// Classes of places: the first block, one in the middle, the last.
pub const PLACES: u16 = 3;

/// The editions of images.
pub const FIRST_EDITION: u16 = 1;
pub const SECOND_EDITION: u16 = 2;

const LAST: usize = BLOCKS - 1;
/// Numbers of words in block 0.
const EDITION: usize = 2;
const READ_ONLY: usize = 15;
/// The check word's number in its block.
const CHECK: usize = BLOCK_SIZE / 2 - 1;

/// Where word `n` of a block starts.
fn place_of(block: usize, n: usize) -> usize {
    BLOCK_SIZE * block + 2 * n
}

fn word(image: &[u8], block: usize, n: usize) -> u16 {
    let at = place_of(block, n);
    u16::from_be_bytes([image[at], image[at + 1]])
}

fn put(image: &mut [u8], block: usize, n: usize, word: u16) {
    let at = place_of(block, n);
    image[at..at + 2].copy_from_slice(&word.to_be_bytes());
}

/// Adds something other than 0 to a word: to one byte of it or to both.
fn change(image: &mut [u8], seeds: &mut Seeds, block: usize, n: usize) {
    let difference = match seeds.below(4) {
        0 => 1,
        1 => 256,
        2 => 65535,
        _ => 1 + seeds.below(65535),
    };
    let changed = word(image, block, n).wrapping_add(difference);
    put(image, block, n, changed);
}

/// Makes a block's check word right.
fn mend(image: &mut [u8], block: usize) {
    let sum = (0..CHECK).fold(0, |sum: u16, n| sum.wrapping_add(word(image, block, n)));
    put(image, block, CHECK, 65535 - sum);
}

fn change_and_mend(image: &mut [u8], seeds: &mut Seeds, block: usize, n: usize) {
    change(image, seeds, block, n);
    mend(image, block);
}

/// A number of words from `first` on.
fn among(seeds: &mut Seeds, first: usize, count: u16) -> usize {
    first + usize::from(seeds.below(count))
}

/// Puts a word of block 0 in place.
fn put_and_mend(image: &mut [u8], n: usize, word: u16) {
    put(image, 0, n, word);
    mend(image, 0);
}

/// Puts a state into block 0 of an image of this edition, well formed or not.
pub fn put_state(image: &mut [u8], state: &State, edition: u16) {
    for (n, word) in words_of(state).enumerate() {
        put(image, 0, 3 + n, word);
    }
    if edition == SECOND_EDITION {
        put(image, 0, READ_ONLY, state.read_only as u16);
    }
    mend(image, 0);
}

/// Makes an image of the second edition one of the first.
pub fn make_first_edition(image: &mut [u8]) {
    put(image, 0, EDITION, FIRST_EDITION);
    put_and_mend(image, READ_ONLY, 0);
}

/// Damage of a kind to an image of this edition, in a block of the class where
/// the kind leaves a choice.
pub fn damage(image: &mut [u8], seeds: &mut Seeds, state: State, edition: u16, kind: u16, place: u16) {
    if kind < OLD_WAYS {
        let bad = spoiled(seeds, state, kind);
        put_state(image, &bad, edition);
        return;
    }
    if kind < WORD_WAYS {
        // the read-only address alone; the first edition has filler there
        let bad = spoiled(seeds, state, kind);
        put_and_mend(image, READ_ONLY, bad.read_only as u16);
        return;
    }
    if kind >= NO_DAMAGE {
        return;
    }
    let block = match place {
        0 => 0,
        1 => among(seeds, 1, 32),
        _ => LAST,
    };
    match kind {
        12 => {
            let n = among(seeds, 0, 255);
            change(image, seeds, block, n);
        }
        13 => change(image, seeds, block, CHECK),
        14 => change_and_mend(image, seeds, block, 0),
        // format, edition
        15 => change_and_mend(image, seeds, 0, 1),
        16 => change_and_mend(image, seeds, 0, EDITION),
        17 => {
            let word = seeds.below(5);
            put_and_mend(image, EDITION, word);
        }
        // any right read-only address; the first edition has filler there
        18 => {
            let word = 2 * seeds.below(8193);
            put_and_mend(image, READ_ONLY, word);
        }
        FILLER => {
            let n = if edition == SECOND_EDITION {
                among(seeds, 16, 239)
            } else {
                among(seeds, 15, 240)
            };
            change_and_mend(image, seeds, 0, n);
        }
        20 => {
            let n = among(seeds, 65, 190);
            change_and_mend(image, seeds, LAST, n);
        }
        21 => {
            let n = among(seeds, 1, 254);
            change_and_mend(image, seeds, block, n);
        }
        _ => {
            let other = among(seeds, 0, 34);
            change_and_mend(image, seeds, block, 0);
            change(image, seeds, other, 7);
        }
    }
}
