//! An ordinary emulator of a TMS 9980A with one TMS 9901, written from the
//! papers alone, so that another implementation can be compared with it.
//!
//! * [`power_up`], [`run`], [`read_image`], [`write_image`] are the four calls.
//! * [`compare_images`] tells what differs between two images.
//! * [`list`] writes one line of text for an instruction.
//! * [`cpu::Machine`] does single steps and tells what each of them was.

pub mod bus;
pub mod compare;
pub mod cpu;
pub mod expect;
pub mod image;
pub mod listing;
pub mod psi;
pub mod run;
pub mod sample;
pub mod seeds;
pub mod state;

pub use bus::{Access, Bus, Memory, MEMORY_SIZE};
pub use compare::{compare_images, Compared, LISTED_RUNS};
pub use cpu::{Machine, Step};
pub use image::{read_image, write_image, BLOCKS, BLOCK_SIZE, IMAGE_SIZE};
pub use listing::{list, Listed, TEXT_SIZE};
pub use psi::{CruBit, Pins, Psi};
pub use run::{power_up, run};
pub use state::{Answer, State};
