//! An image to change, and what it takes to change it.

use super::Random;
use oracle::{write_image, Answer, Psi, State, IMAGE_SIZE, MEMORY_SIZE};

/// A state with something in every field, and a memory of all sorts of bytes.
pub fn sample() -> (State, Vec<u8>) {
    let state = State {
        wp: 0x8302,
        pc: 0xFFFE,
        st: 0xA5C3,
        flags: 2,
        psi: Psi {
            control_and_masks: 0x1235,
            directions: 0xF00F,
            latches: 0x8001,
            load: 16383,
            decrementer: 300,
            read_register: 301,
            phase: 63,
            pending: 1,
        },
        read_only: 0x2A5C,
    };
    let mut random = Random(11);
    (state, (0..MEMORY_SIZE).map(|_| random.word() as u8).collect())
}

pub fn sample_image() -> Vec<u8> {
    let (state, memory) = sample();
    let mut image = vec![0xEE; IMAGE_SIZE];
    assert_eq!(write_image(state, &memory, &mut image), Answer::accepted(state));
    image
}

pub fn word(image: &[u8], at: usize) -> u16 {
    u16::from(image[at]) * 256 + u16::from(image[at + 1])
}

pub fn put(image: &mut [u8], at: usize, value: u16) {
    image[at] = (value >> 8) as u8;
    image[at + 1] = value as u8;
}

/// Makes a block's check word right again.
pub fn mend(image: &mut [u8], block: usize) {
    let sum: u32 = (0..255)
        .map(|i| u32::from(word(image, 512 * block + 2 * i)))
        .sum();
    put(image, 512 * block + 510, 65535 - (sum % 65536) as u16);
}

/// The sample's image as the first edition has it.
pub fn first_edition() -> Vec<u8> {
    let mut image = sample_image();
    put(&mut image, 2 + 2, 1);
    put(&mut image, 2 + 2 * 14, 0);
    mend(&mut image, 0);
    image
}
