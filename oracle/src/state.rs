//! The state outside the memory, and the answer of a call.

use crate::bus::MEMORY_SIZE;
use crate::cpu::Step;
use crate::psi::Psi;

/// Flag weights of [`State::flags`].
pub const FLAG_IDLE: u16 = 1;
pub const FLAG_NO_SAMPLE: u16 = 2;
/// The largest flags of a well-formed state, which has at most one of the two.
const FLAGS_MAX: u16 = FLAG_NO_SAMPLE;

/// The machine's state. Every field but the last is the 16-bit word that the
/// image has for it, so a state can hold any words, well formed or not.
#[derive(Clone, Copy, Debug, PartialEq, Eq)]
pub struct State {
    pub wp: u16,
    pub pc: u16,
    pub st: u16,
    /// Weight 1: idle; weight 2: no-sample.
    pub flags: u16,
    pub psi: Psi,
    /// Stores from this address of the memory on are dropped. Of 32 bits, as a
    /// larger memory needs them.
    pub read_only: u32,
}

impl State {
    /// The read-only address of a machine that stores everywhere.
    pub const NO_READ_ONLY: u32 = MEMORY_SIZE as u32;

    /// All 0, and no read-only part.
    pub const BLANK: State = State {
        wp: 0,
        pc: 0,
        st: 0,
        flags: 0,
        psi: Psi::BLANK,
        read_only: State::NO_READ_ONLY,
    };

    pub fn is_well_formed(&self) -> bool {
        self.wp % 2 == 0
            && self.pc % 2 == 0
            && self.flags <= FLAGS_MAX
            && self.psi.is_well_formed()
            && self.read_only % 2 == 0
            && self.read_only <= State::NO_READ_ONLY
    }
}

/// What a call answers. Counts and numbers that do not apply are 0.
#[derive(Clone, Copy, Debug, PartialEq, Eq)]
pub struct Answer {
    /// 0 if accepted, else the refusal's number.
    pub number: u16,
    /// The bad block of refusals 6 and 7.
    pub block: u16,
    /// The steps done.
    pub steps: usize,
    /// How many of them met an unassigned word.
    pub unassigned: usize,
    /// What the last of them was; nothing if there was none.
    pub last: Step,
    pub state: State,
}

impl Answer {
    pub const ACCEPTED: u16 = 0;
    pub const MEMORY_SIZE_WRONG: u16 = 1;
    pub const STATE_NOT_WELL_FORMED: u16 = 2;
    pub const TOO_FEW_RECORDS: u16 = 3;
    pub const IMAGE_SIZE_WRONG: u16 = 5;
    pub const BLOCK_CHECK_WRONG: u16 = 6;
    pub const BLOCK_NUMBER_WRONG: u16 = 7;
    pub const FORMAT_WRONG: u16 = 8;
    pub const FIELDS_NOT_WELL_FORMED: u16 = 9;
    pub const TEXT_TOO_SHORT: u16 = 11;

    pub fn accepted(state: State) -> Answer {
        Answer::numbered(Answer::ACCEPTED, state)
    }

    pub fn refused(number: u16, state: State) -> Answer {
        Answer::numbered(number, state)
    }

    fn numbered(number: u16, state: State) -> Answer {
        Answer {
            number,
            block: 0,
            steps: 0,
            unassigned: 0,
            last: Step::Nothing,
            state,
        }
    }
}
