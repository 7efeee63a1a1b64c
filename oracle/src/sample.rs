//! The stored samples: a measuring loop with a timer interrupt, and the
//! papers' example of the program's line.

use crate::{write_image, State, IMAGE_SIZE, MEMORY_SIZE};

/// A file of the samples: its path below the folder, and its bytes.
pub type Sample = (&'static str, Vec<u8>);

/// A measuring loop. It sets the PSI's clock to 4 ticks, lets INT3 in, and
/// then adds up eight input bits again and again, while a level 1 interrupt
/// counts the clock's requests.
const LOOP: [(u16, &[u16]); 4] = [
    // Vectors: reset to the main program, level 1 to the service routine.
    (0x0000, &[0x0300, 0x0100, 0x0320, 0x0180]),
    (
        0x0100,
        &[
            0x02E0, 0x0300, // START  LWPI >0300
            0x04CC, //                CLR  R12          the PSI is at CRU bit 0
            0x0201, 0x0009, //        LI   R1,>0009     control 1, load 4
            0x33C1, //                LDCR R1,15
            0x1E00, //                SBZ  0            control 0: masks
            0x1D03, //                SBO  3            INT3 in, pending cleared
            0x04C2, //                CLR  R2           the sum
            0x04C3, //                CLR  R3           the readings
            0x0300, 0x0001, //        LIMI 1
            0x020C, 0x0020, // LOOP   LI   R12,>0020    CRU bit 16, the port P0
            0x3604, //                STCR R4,8         P0 to P7
            0x0984, //                SRL  R4,8
            0xA084, //                A    R4,R2
            0x0583, //                INC  R3
            0x0283, 0x0100, //        CI   R3,256
            0x16F7, //                JNE  LOOP
            0xC802, 0x0400, //        MOV  R2,@>0400    the sum of 256 readings
            0x10FF, // DONE   JMP  DONE
        ],
    ),
    // The service routine, in its own workspace.
    (
        0x0180,
        &[
            0x04CC, // TICK   CLR  R12
            0x1D03, //        SBO  3            clears the clock's request
            0x05A0, 0x0402, // INC  @>0402      the ticks
            0x0380, //        RTWP
        ],
    ),
    (0x0400, &[0x0000, 0x0000]),
];

/// The papers' example: `A R1,R2`, then an unassigned word.
const EXAMPLE: [(u16, &[u16]); 2] = [(0x0100, &[0xA081, 0x0000]), (0x0302, &[0x7FFF, 0x0001])];

/// All pins high and no cycles.
const PINS_HIGH: u32 = 0x003F_FFFF;

/// The address at which the loop's replay stops: DONE.
const DONE: u32 = 0x012E;

pub fn samples() -> Vec<Sample> {
    vec![
        ("samples/loop.image", image(&LOOP)),
        ("samples/loop.pins", file(DONE, loop_records())),
        ("crates/replay/data/before.image", image(&EXAMPLE)),
        ("crates/replay/data/two.pins", file(1, vec![PINS_HIGH; 2])),
    ]
}

/// An image of a machine at 0100h with the workspace 0300h and these words.
fn image(words: &[(u16, &[u16])]) -> Vec<u8> {
    let mut memory = vec![0; MEMORY_SIZE];
    for (address, words) in words {
        for (i, word) in words.iter().enumerate() {
            let at = usize::from(*address) + 2 * i;
            memory[at..at + 2].copy_from_slice(&word.to_be_bytes());
        }
    }
    let state = State {
        wp: 0x0300,
        pc: 0x0100,
        ..State::BLANK
    };
    let mut image = vec![0; IMAGE_SIZE];
    write_image(state, &memory, &mut image);
    image
}

/// A record for each step: 6 to 21 cycles, and the pins P0 to P6 count up
/// slowly, as a measuring signal would.
fn loop_records() -> Vec<u32> {
    (0..4000u32)
        .map(|i| {
            let cycles = 6 + i * 5 % 16;
            let signal = i / 50 % 128;
            cycles << 22 | signal << 15 | 0x7FFF
        })
        .collect()
}

fn file(stop: u32, records: Vec<u32>) -> Vec<u8> {
    std::iter::once(stop)
        .chain(records)
        .flat_map(u32::to_be_bytes)
        .collect()
}
