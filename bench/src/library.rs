//! The exported library, `include/tms_replay.h`, as safe calls. A slice is a pointer and a length.

use oracle::{Psi, State};

extern "C" {
    fn tms_run(
        memory: *mut u8,
        memory_len: usize,
        state: *mut u32,
        records: *const u32,
        records_len: usize,
        steps: usize,
        stop: u16,
        counts: *mut u64,
    ) -> u16;
    fn tms_read_image(
        image: *const u8,
        image_len: usize,
        memory: *mut u8,
        memory_len: usize,
        state: *mut u32,
        block: *mut u32,
    ) -> u16;
    fn tms_write_image(
        state: *const u32,
        memory: *const u8,
        memory_len: usize,
        image: *mut u8,
        image_len: usize,
    ) -> u16;
    fn tms_compare_images(
        first: *const u8,
        first_len: usize,
        second: *const u8,
        second_len: usize,
        answer: *mut u32,
        runs: *mut u32,
    ) -> u16;
}

/// A state's thirteen words, in the order of an image's block 0, each in an element of 32 bits.
pub type Words = [u32; 13];

/// What is told of two images: image, block, fields, number of runs.
pub type Compared = [u32; 4];

/// A run's four counts.
pub type Counts = [u64; 4];

pub fn words(state: &State) -> Words {
    let psi = &state.psi;
    [
        u32::from(state.wp),
        u32::from(state.pc),
        u32::from(state.st),
        u32::from(state.flags),
        u32::from(psi.control_and_masks),
        u32::from(psi.directions),
        u32::from(psi.latches),
        u32::from(psi.load),
        u32::from(psi.decrementer),
        u32::from(psi.read_register),
        u32::from(psi.phase),
        u32::from(psi.pending),
        state.read_only,
    ]
}

/// The state of thirteen words, of which the first twelve fit 16 bits.
pub fn state(words: &Words) -> State {
    let read_only = words[12];
    let words: [u16; 12] = std::array::from_fn(|i| u16::try_from(words[i]).unwrap());
    State {
        wp: words[0],
        pc: words[1],
        st: words[2],
        flags: words[3],
        psi: Psi {
            control_and_masks: words[4],
            directions: words[5],
            latches: words[6],
            load: words[7],
            decrementer: words[8],
            read_register: words[9],
            phase: words[10],
            pending: words[11],
        },
        read_only,
    }
}

/// The number, and in `counts` the steps done, the unassigned words met, and what the last step was.
pub fn run(
    memory: &mut [u8],
    state: &mut Words,
    records: &[u32],
    steps: usize,
    stop: u16,
    counts: &mut Counts,
) -> u16 {
    // SAFETY: each pointer is that of a live slice of the length beside it, and the slices that are
    // changed are borrowed as `&mut`, so none overlaps another.
    unsafe {
        tms_run(
            memory.as_mut_ptr(),
            memory.len(),
            state.as_mut_ptr(),
            records.as_ptr(),
            records.len(),
            steps,
            stop,
            counts.as_mut_ptr(),
        )
    }
}

/// The number, and in `block` the block that a refusal names.
pub fn read_image(image: &[u8], memory: &mut [u8], state: &mut Words, block: &mut u32) -> u16 {
    // SAFETY: as in `run`.
    unsafe {
        tms_read_image(
            image.as_ptr(),
            image.len(),
            memory.as_mut_ptr(),
            memory.len(),
            state.as_mut_ptr(),
            block,
        )
    }
}

pub fn write_image(state: &Words, memory: &[u8], image: &mut [u8]) -> u16 {
    // SAFETY: as in `run`.
    unsafe {
        tms_write_image(
            state.as_ptr(),
            memory.as_ptr(),
            memory.len(),
            image.as_mut_ptr(),
            image.len(),
        )
    }
}

/// The number; in `answer` what is told of the two images, in `runs` start and length of the first 256.
pub fn compare_images(first: &[u8], second: &[u8], answer: &mut Compared, runs: &mut [u32; 512]) -> u16 {
    // SAFETY: as in `run`.
    unsafe {
        tms_compare_images(
            first.as_ptr(),
            first.len(),
            second.as_ptr(),
            second.len(),
            answer.as_mut_ptr(),
            runs.as_mut_ptr(),
        )
    }
}
