//! `oracle expect NAME`: the output that the test program NAME is to write. Both
//! sides make the same inputs from the same seeds, and print sums of what comes
//! of them.

mod clock;
mod compare;
mod damage;
mod images;
mod listing;
mod programs;
mod runs;
mod steps;

use crate::cpu::Step;
use crate::psi::Psi;
use crate::seeds::Seeds;
use crate::{State, MEMORY_SIZE};

/// The expected output of a test program, if there is one of that name.
pub fn expect(name: &str) -> Option<String> {
    match name {
        "test_clock" => Some(clock::expect()),
        "test_compare" => Some(compare::expect()),
        "test_images" => Some(images::expect()),
        "test_listing" => Some(listing::expect()),
        "test_runs" => Some(runs::expect()),
        "test_steps" => Some(steps::expect()),
        _ => None,
    }
}

/// A sum over numbers, of 32 bits.
#[derive(Clone, Copy, Default)]
struct Sum(u32);

impl Sum {
    fn mix(&mut self, number: u32) {
        self.0 = self.0.wrapping_mul(16_777_619).wrapping_add(number);
    }

    fn mix_bytes(&mut self, bytes: &[u8]) {
        for &byte in bytes {
            self.mix(u32::from(byte));
        }
    }

    fn mix_all(&mut self, numbers: impl IntoIterator<Item = u32>) {
        for number in numbers {
            self.mix(number);
        }
    }

    fn mix_words(&mut self, words: impl IntoIterator<Item = u16>) {
        for word in words {
            self.mix(u32::from(word));
        }
    }

    /// What a step was: the kind's number, then the number that goes with it.
    fn mix_step(&mut self, step: Step) {
        self.mix_words([step.kind(), step.number()]);
    }

    fn mix_psi(&mut self, psi: &Psi) {
        self.mix_words(words_of_psi(psi));
    }

    fn mix_state(&mut self, state: &State) {
        self.mix_words(words_of(state));
        self.mix(state.read_only);
    }
}

/// The words of a state without the read-only address, in the image's order.
fn words_of(state: &State) -> impl Iterator<Item = u16> {
    [state.wp, state.pc, state.st, state.flags]
        .into_iter()
        .chain(words_of_psi(&state.psi))
}

/// The words of a PSI, in the image's order.
fn words_of_psi(psi: &Psi) -> [u16; 8] {
    [
        psi.control_and_masks,
        psi.directions,
        psi.latches,
        psi.load,
        psi.decrementer,
        psi.read_register,
        psi.phase,
        psi.pending,
    ]
}

/// The sum of some bytes alone.
fn sum_of(bytes: &[u8]) -> u32 {
    let mut sum = Sum::default();
    sum.mix_bytes(bytes);
    sum.0
}

fn fill(bytes: &mut [u8], seeds: &mut Seeds) {
    for byte in bytes {
        *byte = (seeds.word() >> 8) as u8;
    }
}

fn put_word(memory: &mut [u8], address: u16, value: u16) {
    let place = usize::from(address & !1) % MEMORY_SIZE;
    memory[place..place + 2].copy_from_slice(&value.to_be_bytes());
}

fn get_word(memory: &[u8], address: u16) -> u16 {
    let place = usize::from(address & !1) % MEMORY_SIZE;
    u16::from_be_bytes([memory[place], memory[place + 1]])
}

/// The address of a register.
fn address_of(wp: u16, n: u16) -> u16 {
    wp.wrapping_add(2 * n)
}

/// A word of memory; some are addresses just after `near`.
fn value(seeds: &mut Seeds, near: u16) -> u16 {
    const MARKED: [u16; 8] = [0, 1, 2, 0x7FFF, 0x8000, 0xFFFF, 0x00FF, 0x0100];
    match seeds.below(4) {
        0 => MARKED[usize::from(seeds.below(8))],
        1 => near.wrapping_add(seeds.below(64)),
        2 => seeds.below(1024),
        _ => seeds.word(),
    }
}

/// An even address; some lie just before 65536 and some just after 0.
fn address(seeds: &mut Seeds) -> u16 {
    match seeds.below(8) {
        0 => 0xFFE0 + 2 * seeds.below(16),
        1 => 2 * seeds.below(64),
        _ => seeds.word() & !1,
    }
}

/// Mostly `usual`, else a number below `limit`.
fn mostly(seeds: &mut Seeds, usual: u16, limit: u16) -> u16 {
    let other = seeds.below(limit);
    if seeds.once_in(3) {
        usual
    } else {
        other
    }
}

/// A well-formed PSI.
fn psi(seeds: &mut Seeds) -> Psi {
    // no mask, masks of the requests for levels alone, or any
    let control_and_masks = match seeds.below(4) {
        0 => seeds.below(2),
        1 => seeds.word() & 0x7879,
        _ => seeds.word(),
    };
    let directions = if seeds.once_in(4) { seeds.word() } else { 0 };
    let latches = seeds.word() & directions;
    let load = mostly(seeds, 0, 16384);
    let soon = seeds.below(4);
    let decrementer = mostly(seeds, soon, 16384);
    let other = seeds.below(16384);
    let read_register = if control_and_masks % 2 == 0 {
        decrementer
    } else {
        other
    };
    Psi {
        control_and_masks,
        directions,
        latches,
        load,
        decrementer,
        read_register,
        phase: seeds.below(64),
        pending: seeds.below(2),
    }
}

/// A state with these flags and all else well formed, without a read-only part;
/// some have PC in the workspace.
fn state(seeds: &mut Seeds, flags: u16) -> State {
    let wp = address(seeds);
    let near = wp.wrapping_add(2 * seeds.below(32));
    let pc = if seeds.once_in(8) { near } else { address(seeds) };
    let st = seeds.word();
    State {
        wp,
        pc,
        st,
        flags,
        psi: psi(seeds),
        read_only: State::NO_READ_ONLY,
    }
}

/// A vector's address: of a reset or a level, of LOAD, or of an XOP.
fn vector(seeds: &mut Seeds) -> u16 {
    let n = seeds.below(8);
    match n {
        0..=4 => 4 * n,
        5 => 0x3FFC,
        _ => 0x0040 + 4 * seeds.below(16),
    }
}

/// A first read-only address that suits a state and its memory: at an end of the
/// memory, or at one of the words that the machine is likely to store in.
fn read_only(seeds: &mut Seeds, state: &State, memory: &[u8]) -> u32 {
    let address = match seeds.below(8) {
        0 => 0,
        1 => 2,
        2 => 16382,
        3 => 16384,
        // in the workspace
        4 => state.wp.wrapping_add(2 * seeds.below(16)) % 16384,
        // R13 to R15 of a vector's workspace, or the word after them
        5 => {
            let vector = vector(seeds);
            let wp = get_word(memory, vector) & !1;
            wp.wrapping_add(26 + 2 * seeds.below(4)) % 16384
        }
        // at the PC or soon after
        6 => state.pc.wrapping_add(2 * seeds.below(16)) % 16384,
        _ => 2 * seeds.below(8193),
    };
    u32::from(address)
}

/// The levels of the 22 pins: mostly all high, else with one or two low, or any.
fn levels(seeds: &mut Seeds, quiet: u16) -> u32 {
    const HIGH: u32 = 0x3F_FFFF;
    let lowered = |seeds: &mut Seeds, levels: u32| levels & !(1 << seeds.below(22));
    match seeds.below(quiet) {
        0 => {
            let high = u32::from(seeds.word());
            high << 6 | u32::from(seeds.below(64))
        }
        1 => lowered(seeds, HIGH),
        2 => {
            let one = lowered(seeds, HIGH);
            lowered(seeds, one)
        }
        _ => HIGH,
    }
}

/// A pin record; the higher `quiet`, the fewer have a pin low.
fn record(seeds: &mut Seeds, quiet: u16) -> u32 {
    let cycles = match seeds.below(4) {
        0 => 0,
        1 => seeds.below(64),
        2 => 64,
        _ => seeds.below(1024),
    };
    u32::from(cycles) << 22 | levels(seeds, quiet)
}

/// How many ways there are to spoil a state. The first leave the read-only
/// address alone.
const OLD_WAYS: u16 = 10;
/// Those that leave all its numbers fit for the image's words.
const WORD_WAYS: u16 = 12;
const WAYS: u16 = 13;

/// A state that is not well formed, in one of the ways.
fn spoiled(seeds: &mut Seeds, state: State, way: u16) -> State {
    let mut state = state;
    let psi = &mut state.psi;
    // all ways of the PSI take this number
    let large = if way < 3 || way >= OLD_WAYS {
        0
    } else {
        16384 + seeds.below(49152)
    };
    match way {
        0 => state.wp |= 1,
        1 => state.pc |= 1,
        2 => state.flags = 4 + seeds.below(65532),
        3 => psi.load = large,
        4 => psi.decrementer = large,
        5 => psi.read_register = large,
        6 => psi.phase = 64 + seeds.below(65472),
        7 => psi.pending = 2 + seeds.below(65534),
        8 => {
            let port = 1 << seeds.below(16);
            psi.directions &= !port;
            psi.latches |= port;
        }
        9 => {
            psi.control_and_masks &= !1;
            psi.read_register = (psi.decrementer + 1) % 16384;
        }
        // odd
        10 => state.read_only = u32::from(2 * seeds.below(8192) + 1),
        // too large
        11 => state.read_only = u32::from(16385 + seeds.below(49151)),
        // too large, with a low half that would do
        _ => {
            let high = 1 + u32::from(seeds.below(65535));
            state.read_only = 65536 * high + u32::from(2 * seeds.below(8193));
        }
    }
    state
}

#[cfg(test)]
mod input_tests;
