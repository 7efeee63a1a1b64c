//! A small bench for the tests: memory, state, and short ways to use them.
#![allow(dead_code)]

pub mod images;

use oracle::{run, Answer, Machine, Memory, State, Step, MEMORY_SIZE};

/// All pins high, no cycles.
pub const QUIET: u32 = 0x003F_FFFF;

pub const LGT: u16 = 0x8000;
pub const AGT: u16 = 0x4000;
pub const EQ: u16 = 0x2000;
pub const C: u16 = 0x1000;
pub const OV: u16 = 0x0800;
pub const OP: u16 = 0x0400;
pub const X: u16 = 0x0200;

pub const WP: u16 = 0x0300;
pub const PC: u16 = 0x0100;

pub struct Bench {
    pub memory: Vec<u8>,
    pub state: State,
}

impl Bench {
    /// Zeroed memory, WP 0300h, PC 0100h, all else 0.
    pub fn new() -> Bench {
        Bench {
            memory: vec![0; MEMORY_SIZE],
            state: State {
                wp: WP,
                pc: PC,
                ..State::BLANK
            },
        }
    }

    /// A bench with these words at the PC.
    pub fn with(words: &[u16]) -> Bench {
        let mut bench = Bench::new();
        bench.program(words);
        bench
    }

    pub fn program(&mut self, words: &[u16]) {
        let pc = self.state.pc;
        for (i, &word) in words.iter().enumerate() {
            self.put(pc.wrapping_add(2 * i as u16), word);
        }
    }

    pub fn put(&mut self, address: u16, value: u16) {
        let at = usize::from(address & 0x3FFE);
        self.memory[at] = (value >> 8) as u8;
        self.memory[at + 1] = value as u8;
    }

    pub fn word(&self, address: u16) -> u16 {
        let at = usize::from(address & 0x3FFE);
        u16::from(self.memory[at]) * 256 + u16::from(self.memory[at + 1])
    }

    pub fn byte(&self, address: u16) -> u8 {
        self.memory[usize::from(address & 0x3FFF)]
    }

    pub fn set_r(&mut self, n: u16, value: u16) {
        self.put(self.state.wp.wrapping_add(2 * n), value);
    }

    pub fn r(&self, n: u16) -> u16 {
        self.word(self.state.wp.wrapping_add(2 * n))
    }

    /// Runs over the records with no stop address; must be accepted.
    pub fn run(&mut self, records: &[u32]) -> Answer {
        let answer = run(&mut self.memory, self.state, records, records.len(), 1);
        assert_eq!(answer.number, 0);
        assert_eq!(answer.steps, records.len());
        self.state = answer.state;
        answer
    }

    /// One quiet step; tells how many unassigned words it met.
    pub fn step(&mut self) -> usize {
        self.run(&[QUIET]).unassigned
    }

    /// One step with this record; tells what it was.
    pub fn kind(&mut self, record: u32) -> Step {
        let memory: &mut Memory = self.memory.as_mut_slice().try_into().unwrap();
        let mut machine = Machine::new(memory, self.state);
        let kind = machine.step(record);
        self.state = machine.state();
        assert!(self.state.is_well_formed());
        kind
    }
}

/// A record with the INT pins of the list low, all others high, no cycles.
pub fn low(interrupts: &[u32]) -> u32 {
    interrupts
        .iter()
        .fold(QUIET, |record, n| record & !(1 << (n - 1)))
}

/// A record with all pins high and these φ cycles.
pub fn cycles(count: u32) -> u32 {
    assert!(count <= 1023);
    QUIET | count << 22
}

/// A small generator of pseudo-random numbers (xorshift).
pub struct Random(pub u64);

impl Random {
    pub fn next(&mut self) -> u64 {
        self.0 ^= self.0 << 13;
        self.0 ^= self.0 >> 7;
        self.0 ^= self.0 << 17;
        self.0.wrapping_mul(0x2545_F491_4F6C_DD1D)
    }
    pub fn word(&mut self) -> u16 {
        (self.next() >> 40) as u16
    }
    pub fn record(&mut self) -> u32 {
        (self.next() >> 32) as u32
    }
    pub fn below(&mut self, limit: u64) -> u64 {
        (self.next() >> 11) % limit
    }
}
