//! What differs between two images: fields of block 0, and runs of memory bytes.

use crate::bus::MEMORY_SIZE;
use crate::image::{judge, memory_parts, Fields, Refusal};
use crate::state::Answer;

/// How many runs are listed; what lies beyond is only counted.
pub const LISTED_RUNS: usize = 256;

/// What a comparison answers. Numbers that do not apply are 0.
#[derive(Clone, Copy, Debug, PartialEq, Eq)]
pub struct Compared {
    /// 0 if accepted, else the refusal's number.
    pub number: u16,
    /// The refused image, 1 or 2.
    pub image: u16,
    /// Its bad block, of refusals 6 and 7.
    pub block: u16,
    /// The fields that differ, field k with weight 2^k.
    pub fields: u32,
    /// The runs that there are, listed or not.
    pub runs: u32,
}

impl Compared {
    fn refused(image: u16, refusal: Refusal) -> Compared {
        Compared {
            number: refusal.number,
            image,
            block: refusal.block,
            fields: 0,
            runs: 0,
        }
    }
}

/// Compares two images. The first runs of differing memory bytes go into `runs`:
/// start, length, start, length and so on, then zeros.
pub fn compare_images(first: &[u8], second: &[u8], runs: &mut [u32; 2 * LISTED_RUNS]) -> Compared {
    runs.fill(0);
    let first_fields = match judge(first) {
        Ok(fields) => fields,
        Err(refusal) => return Compared::refused(1, refusal),
    };
    let second_fields = match judge(second) {
        Ok(fields) => fields,
        Err(refusal) => return Compared::refused(2, refusal),
    };
    Compared {
        number: Answer::ACCEPTED,
        image: 0,
        block: 0,
        fields: differing_fields(&first_fields, &second_fields),
        runs: list_runs(first, second, runs),
    }
}

fn differing_fields(first: &Fields, second: &Fields) -> u32 {
    let mut weights = 0;
    for (k, (a, b)) in first.iter().zip(second).enumerate() {
        if a != b {
            weights |= 1 << k;
        }
    }
    weights
}

/// Lists the first runs in `list`, which is all zeros, and counts all of them.
fn list_runs(first: &[u8], second: &[u8], list: &mut [u32; 2 * LISTED_RUNS]) -> u32 {
    let mut count = 0;
    let mut add = |start: usize, end: usize| {
        if count < LISTED_RUNS {
            list[2 * count] = start as u32;
            list[2 * count + 1] = (end - start) as u32;
        }
        count += 1;
    };
    // where the run began that the byte before is part of; it may go on in the
    // next block
    let mut open = None;
    for ((address, first), (_, second)) in memory_parts(first).zip(memory_parts(second)) {
        if open.is_none() && first == second {
            continue;
        }
        for (at, (a, b)) in (address..).zip(first.iter().zip(second)) {
            match open {
                None if a != b => open = Some(at),
                Some(start) if a == b => {
                    add(start, at);
                    open = None;
                }
                _ => {}
            }
        }
    }
    if let Some(start) = open {
        add(start, MEMORY_SIZE);
    }
    count as u32
}
