//! The loops that are measured: programs, images and pin records.

use std::ops::Range;

use oracle::{Machine, State, Step, IMAGE_SIZE, MEMORY_SIZE};

/// The steps of a loop, and those of one call: as many as a pin file has records.
pub const STEPS: usize = 1_000_000;
pub const PORTION: usize = 16383;

const START: u16 = 0x0100;
const WORKSPACE: u16 = 0x0300;

/// Seven instructions on registers, and a jump back.
const REGISTERS: [u16; 8] = [
    0xA081, // LOOP   A    R1,R2
    0x0583, //        INC  R3
    0x2902, //        XOR  R2,R4
    0x0A15, //        SLA  R5,1
    0xC184, //        MOV  R4,R6
    0x8086, //        C    R6,R2
    0x0607, //        DEC  R7
    0x10F8, //        JMP  LOOP
];

/// Seven CRU instructions, and a jump back. R12 is 0020h: CRU bit 16, the port P0.
const CRU: [u16; 8] = [
    0x1D05, // LOOP   SBO  5
    0x1F14, //        TB   20
    0x3201, //        LDCR R1,8
    0x3402, //        STCR R2,0         16 bits
    0x1E05, //        SBZ  5
    0x3003, //        LDCR R3,0         16 bits
    0x3604, //        STCR R4,8
    0x10F8, //        JMP  LOOP
];

/// Operands in memory, bytes and jumps. The sum is never cleared, and its bytes change places, so that JL goes
/// now one way, now the other, without a short period. All stores are to the workspace and to 0860h to 0905h.
const MIXED: [u16; 42] = [
    0x0201, 0x0800, // START  LI   R1,>0800         32 readings, words
    0x0205, 0x0840, //        LI   R5,>0840         32 limits, bytes
    0x04C2, //                CLR  R2               the reading's number
    0xC0F1, //         NEXT   MOV  *R1+,R3          a reading
    0x130C, //                JEQ  LOW              never: none is 0
    0xA803, 0x0900, //        A    R3,@>0900        the sum
    0x06E0, 0x0900, //        SWPB @>0900
    0xD1A0, 0x0900, //        MOVB @>0900,R6        a byte of it
    0x9D46, //                CB   R6,*R5+          and the limit
    0x1A04, //                JL   LOW
    0xB886, 0x0860, //        AB   R6,@>0860(R2)    reached: a sum of its own
    0x06A0, 0x0140, //        BL   @SCALE
    0xC1C2, //         LOW    MOV  R2,R7
    0x0A17, //                SLA  R7,1
    0x6267, 0x0800, //        S    @>0800(R7),R9    the reading again
    0x0249, 0x7FFF, //        ANDI R9,>7FFF
    0xC609, //                MOV  R9,*R8           R8 is 0902h
    0x0582, //                INC  R2
    0x0282, 0x0020, //        CI   R2,32
    0x16E7, //                JNE  NEXT
    0x0460, 0x0100, //        B    @START
    0xC118, //         SCALE  MOV  *R8,R4
    0x0944, //                SRL  R4,4
    0x0224, 0x0123, //        AI   R4,>0123
    0x9804, 0x0900, //        CB   R4,@>0900
    0x1502, //                JGT  BACK
    0xD804, 0x0904, //        MOVB R4,@>0904
    0x045B, //         BACK   B    *R11
];

/// The first of the 32 readings, and of the 32 limits after them.
const READINGS: u16 = 0x0800;

/// Four X, an ordinary instruction after each.
const X: [u16; 9] = [
    0x0485, //         LOOP   X    R5               A    R1,R2
    0x0583, //                INC  R3
    0x0486, //                X    R6               X    R5
    0x0A14, //                SLA  R4,1
    0x0497, //                X    *R7              INV  R9, at 0900h
    0x2902, //                XOR  R2,R4
    0x0488, 0x0123, //        X    R8               AI   R10,>0123: takes the word after X
    0x10F7, //                JMP  LOOP
];

/// What those X find: R5 to R8, and the word at 0900h.
const X_WORDS: [(u16, u16); 5] = [
    (WORKSPACE + 10, 0xA081),
    (WORKSPACE + 12, 0x0485),
    (WORKSPACE + 14, 0x0900),
    (WORKSPACE + 16, 0x022A),
    (0x0900, 0x0549),
];

/// The measuring loop of `samples/`, in assembler notation in `oracle/src/sample.rs`.
const SAMPLE: &[u8] = include_bytes!("../../samples/loop.image");

/// Its end after 256 readings. A jump stands there instead, back to where the sum and the readings are
/// cleared: so it runs for ever, and the clock is set up but once.
const DONE: u16 = 0x012E;
const AGAIN: u16 = 0x10F0; // JMP >0110

/// What a loop's steps were.
#[derive(Default, Debug)]
struct Seen {
    /// Interrupts entered, at level 1.
    entries: usize,
    x: usize,
    /// Conditional jumps, taken and not.
    taken: usize,
    untaken: usize,
}

pub struct Loop {
    pub name: &'static str,
    pub image: Vec<u8>,
    /// One for each step of a portion; every portion has the same.
    pub records: Vec<u32>,
    /// The loop's own code and its service routine: the PC stays there, and they stay as they are.
    code: [Range<u16>; 2],
    /// Where the service routine counts the timer's interrupts.
    pub ticks: Option<u16>,
    /// Whether the steps are of the kind that the name says.
    is_as_named: fn(&Seen) -> bool,
}

pub fn registers() -> Loop {
    plain("register instructions", &REGISTERS, &[], |_| true)
}

pub fn cru() -> Loop {
    plain("CRU transfers", &CRU, &[], |_| true)
}

pub fn mixed() -> Loop {
    let mut random = Random::new();
    let mut words = vec![(WORKSPACE + 16, 0x0902)];
    words.extend(
        (READINGS..READINGS + 96)
            .step_by(2)
            .map(|at| (at, 1 + random.below(0xFFFF) as u16)),
    );
    plain("memory operands and jumps", &MIXED, &words, |seen| {
        seen.taken > STEPS / 20 && seen.untaken > STEPS / 20
    })
}

pub fn x() -> Loop {
    plain("X", &X, &X_WORDS, |seen| seen.x == STEPS / 2)
}

/// The sample's image with all masks set: every request is enabled, and the timer's is the only one.
pub fn measuring() -> Loop {
    let mut memory = vec![0; MEMORY_SIZE];
    let mut state = oracle::read_image(SAMPLE, &mut memory).state;
    state.psi.control_and_masks = 0xFFFE;
    put(&mut memory, DONE, AGAIN);
    let mut random = Random::new();
    Loop {
        name: "measuring loop",
        image: image(state, &memory),
        // As the sample's: 6 to 21 cycles, P0 to P6 a slow signal, all other pins high. But the sample's
        // cycles repeat after 16 steps, and these do not.
        records: (0..PORTION as u32)
            .map(|i| (6 + random.below(16)) << 22 | (i / 50 % 128) << 15 | 0x7FFF)
            .collect(),
        code: [START..DONE + 2, 0x0180..0x018A],
        ticks: Some(0x0402),
        is_as_named: |seen| seen.entries > STEPS / 30 && seen.taken > STEPS / 10,
    }
}

/// A machine at the program, the clock running with a load of 100, all masks 0, so that no step is an entry.
/// `words`, addresses and what is there, come on top of the registers' arbitrary numbers.
fn plain(name: &'static str, program: &[u16], words: &[(u16, u16)], is_as_named: fn(&Seen) -> bool) -> Loop {
    let mut memory = vec![0; MEMORY_SIZE];
    for (at, &word) in (START..).step_by(2).zip(program) {
        put(&mut memory, at, word);
    }
    for n in 0..16 {
        put(&mut memory, WORKSPACE + 2 * n, 0x1234u16.wrapping_mul(2 * n + 1));
    }
    put(&mut memory, WORKSPACE + 24, 0x0020);
    for &(at, word) in words {
        put(&mut memory, at, word);
    }
    let mut state = State {
        wp: WORKSPACE,
        pc: START,
        ..State::BLANK
    };
    state.psi.load = 100;
    let mut random = Random::new();
    Loop {
        name,
        image: image(state, &memory),
        // All pins high, and 0 to 38 cycles without a short period: the processor that runs the benchmark
        // shall not foretell by it at which steps the clock ticks.
        records: (0..PORTION)
            .map(|_| random.below(39) << 22 | 0x003F_FFFF)
            .collect(),
        code: [START..START + 2 * program.len() as u16, 0..0],
        ticks: None,
        is_as_named,
    }
}

impl Loop {
    /// Goes through all steps one by one, outside the measured time, to see that they are what they should.
    pub fn check(&self) {
        let mut memory = [0; MEMORY_SIZE];
        let mut state = oracle::read_image(&self.image, &mut memory).state;
        let masks = state.psi.control_and_masks;
        let before = memory;
        let mut seen = Seen::default();
        for i in 0..STEPS {
            let pc = state.pc;
            assert!(
                self.code.iter().any(|code| code.contains(&pc)),
                "{}: PC {pc:04X}",
                self.name
            );
            let word = word(&memory, pc);
            let mut machine = Machine::new(&mut memory, state);
            let step = machine.step(self.records[i % PORTION]);
            state = machine.state();
            match step {
                Step::Level(1) => seen.entries += 1,
                Step::Instruction => match word {
                    0x0480..=0x04BF => seen.x += 1,
                    0x1100..=0x1CFF if state.pc != pc + 2 => seen.taken += 1,
                    0x1100..=0x1CFF => seen.untaken += 1,
                    _ => {}
                },
                _ => panic!("{}: {step:?} at {pc:04X}", self.name),
            }
        }
        for at in self.code.iter().cloned().flatten().map(usize::from) {
            assert_eq!(memory[at], before[at], "{}: at {at:04X}", self.name);
        }
        assert_eq!(state.psi.control_and_masks, masks, "{}", self.name);
        assert!((self.is_as_named)(&seen), "{}: {seen:?}", self.name);
    }
}

pub fn word(memory: &[u8], at: u16) -> u16 {
    let at = usize::from(at);
    u16::from_be_bytes([memory[at], memory[at + 1]])
}

fn put(memory: &mut [u8], at: u16, word: u16) {
    let at = usize::from(at);
    memory[at..at + 2].copy_from_slice(&word.to_be_bytes());
}

fn image(state: State, memory: &[u8]) -> Vec<u8> {
    let mut image = vec![0; IMAGE_SIZE];
    assert_eq!(oracle::write_image(state, memory, &mut image).number, 0);
    image
}

/// A linear congruential generator with a fixed seed: the same numbers in each run.
pub struct Random(u32);

impl Random {
    pub fn new() -> Random {
        Random(1)
    }

    /// A number from 0 to `end` - 1, from the upper half: the lower bits have short periods.
    pub fn below(&mut self, end: u32) -> u32 {
        self.0 = self.0.wrapping_mul(1_103_515_245).wrapping_add(12345);
        (self.0 >> 16) % end
    }
}
