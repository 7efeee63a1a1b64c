//! Images: state and memory in numbered blocks with check words.

use crate::bus::MEMORY_SIZE;
use crate::psi::Psi;
use crate::state::{Answer, State};

pub const BLOCKS: usize = 34;
pub const BLOCK_SIZE: usize = 512;
pub const IMAGE_SIZE: usize = BLOCKS * BLOCK_SIZE;

const FORMAT: u16 = 0x9901;
/// Without a read-only address; it is read, and no longer written.
const FIRST_EDITION: u16 = 1;
/// With a read-only address.
const EDITION: u16 = 2;

/// A block's content lies between its number and its check word.
const CONTENT: std::ops::Range<usize> = 2..510;
const CONTENT_SIZE: usize = 508;
/// Words of block 0's content that are in use; the first edition has one less,
/// the last.
const FIELDS: usize = 15;

/// The words of block 0 in their order, the format word first and the read-only
/// address last: of the first edition, which has none, that of no read-only part.
pub(crate) type Fields = [u16; FIELDS];

/// Why an image is refused.
pub(crate) struct Refusal {
    pub number: u16,
    /// The bad block of refusals 6 and 7, else 0.
    pub block: u16,
}

/// The fields of an image that is as it must be in all its blocks.
pub(crate) fn judge(image: &[u8]) -> Result<Fields, Refusal> {
    let refused = |number, block| Err(Refusal { number, block });
    if image.len() != IMAGE_SIZE {
        return refused(Answer::IMAGE_SIZE_WRONG, 0);
    }
    for (number, block) in (0..).zip(image.chunks_exact(BLOCK_SIZE)) {
        if word_sum(block) != 0xFFFF {
            return refused(Answer::BLOCK_CHECK_WRONG, number);
        }
        if word(block, 0) != number {
            return refused(Answer::BLOCK_NUMBER_WRONG, number);
        }
    }

    let content = &image[CONTENT];
    let mut fields: Fields = std::array::from_fn(|n| word(content, n));
    let used = match (fields[0], fields[1]) {
        (FORMAT, FIRST_EDITION) => {
            fields[FIELDS - 1] = State::NO_READ_ONLY as u16;
            FIELDS - 1
        }
        (FORMAT, EDITION) => FIELDS,
        _ => return refused(Answer::FORMAT_WRONG, 0),
    };
    let last_block = &image[(BLOCKS - 1) * BLOCK_SIZE..];
    let last_used = MEMORY_SIZE - (BLOCKS - 2) * CONTENT_SIZE;
    let filler_is_zero = all_zero(&content[2 * used..]) && all_zero(&last_block[CONTENT][last_used..]);
    if !state_of(&fields).is_well_formed() || !filler_is_zero {
        return refused(Answer::FIELDS_NOT_WELL_FORMED, 0);
    }
    Ok(fields)
}

fn state_of(fields: &Fields) -> State {
    State {
        wp: fields[2],
        pc: fields[3],
        st: fields[4],
        flags: fields[5],
        psi: Psi {
            control_and_masks: fields[6],
            directions: fields[7],
            latches: fields[8],
            load: fields[9],
            decrementer: fields[10],
            read_register: fields[11],
            phase: fields[12],
            pending: fields[13],
        },
        read_only: u32::from(fields[14]),
    }
}

/// The memory of an image in the parts that its blocks hold, each with the address
/// of its first byte.
pub(crate) fn memory_parts(image: &[u8]) -> impl Iterator<Item = (usize, &[u8])> {
    let addresses = (0..MEMORY_SIZE).step_by(CONTENT_SIZE);
    let blocks = image.chunks_exact(BLOCK_SIZE).skip(1);
    addresses.zip(blocks).map(|(address, block)| {
        let size = CONTENT_SIZE.min(MEMORY_SIZE - address);
        (address, &block[CONTENT][..size])
    })
}

/// Reads an image: its memory into `memory`, its state into the answer.
pub fn read_image(image: &[u8], memory: &mut [u8]) -> Answer {
    if memory.len() != MEMORY_SIZE {
        return Answer::refused(Answer::MEMORY_SIZE_WRONG, State::BLANK);
    }
    match judge(image) {
        Ok(fields) => {
            for (address, part) in memory_parts(image) {
                memory[address..address + part.len()].copy_from_slice(part);
            }
            Answer::accepted(state_of(&fields))
        }
        Err(Refusal { number, block }) => Answer {
            block,
            ..Answer::refused(number, State::BLANK)
        },
    }
}

/// Writes `state` and `memory` into `image`.
pub fn write_image(state: State, memory: &[u8], image: &mut [u8]) -> Answer {
    if memory.len() != MEMORY_SIZE {
        return Answer::refused(Answer::MEMORY_SIZE_WRONG, state);
    }
    if image.len() != IMAGE_SIZE {
        return Answer::refused(Answer::IMAGE_SIZE_WRONG, state);
    }
    if !state.is_well_formed() {
        return Answer::refused(Answer::STATE_NOT_WELL_FORMED, state);
    }

    let psi = &state.psi;
    let fields: Fields = [
        FORMAT,
        EDITION,
        state.wp,
        state.pc,
        state.st,
        state.flags,
        psi.control_and_masks,
        psi.directions,
        psi.latches,
        psi.load,
        psi.decrementer,
        psi.read_register,
        psi.phase,
        psi.pending,
        // even and at most 16384, or the state would not be well formed
        state.read_only as u16,
    ];
    let mut content = [0; 2 * FIELDS];
    for (place, field) in content.chunks_exact_mut(2).zip(fields) {
        place.copy_from_slice(&field.to_be_bytes());
    }
    let contents = std::iter::once(&content[..]).chain(memory.chunks(CONTENT_SIZE));
    for (number, (place, content)) in image.chunks_exact_mut(BLOCK_SIZE).zip(contents).enumerate() {
        place.copy_from_slice(&block(number as u16, content));
    }
    Answer::accepted(state)
}

/// A block with its number, content and check word, and zeros elsewhere.
fn block(number: u16, content: &[u8]) -> [u8; BLOCK_SIZE] {
    let mut block = [0; BLOCK_SIZE];
    block[..2].copy_from_slice(&number.to_be_bytes());
    block[CONTENT][..content.len()].copy_from_slice(content);
    let check = 0xFFFF - word_sum(&block);
    block[CONTENT.end..].copy_from_slice(&check.to_be_bytes());
    block
}

/// Word number `n` of some bytes.
fn word(bytes: &[u8], n: usize) -> u16 {
    u16::from_be_bytes([bytes[2 * n], bytes[2 * n + 1]])
}

/// The sum of all words, modulo 65536.
fn word_sum(bytes: &[u8]) -> u16 {
    (0..bytes.len() / 2).fold(0, |sum, n| u16::wrapping_add(sum, word(bytes, n)))
}

fn all_zero(bytes: &[u8]) -> bool {
    bytes.iter().all(|&byte| byte == 0)
}
