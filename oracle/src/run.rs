//! Power up, and the run over a list of pin records.

use crate::bus::Memory;
use crate::cpu::{Machine, Step};
use crate::state::{Answer, State};

/// A blank machine that has just entered reset.
pub fn power_up(memory: &mut [u8]) -> Answer {
    let Ok(memory) = <&mut Memory>::try_from(memory) else {
        return Answer::refused(Answer::MEMORY_SIZE_WRONG, State::BLANK);
    };
    let mut machine = Machine::new(memory, State::BLANK);
    machine.reset();
    Answer::accepted(machine.state())
}

/// Does up to `steps` steps, one record each, and stops before a step at which
/// the PC is `stop` (an odd one never is).
pub fn run(memory: &mut [u8], state: State, records: &[u32], steps: usize, stop: u16) -> Answer {
    let Ok(memory) = <&mut Memory>::try_from(memory) else {
        return Answer::refused(Answer::MEMORY_SIZE_WRONG, state);
    };
    if !state.is_well_formed() {
        return Answer::refused(Answer::STATE_NOT_WELL_FORMED, state);
    }
    let Some(records) = records.get(..steps) else {
        return Answer::refused(Answer::TOO_FEW_RECORDS, state);
    };

    let mut machine = Machine::new(memory, state);
    let mut done = 0;
    let mut unassigned = 0;
    let mut last = Step::Nothing;
    for &record in records {
        if machine.pc == stop {
            break;
        }
        last = machine.step(record);
        unassigned += usize::from(last.is_unassigned());
        done += 1;
    }
    Answer {
        steps: done,
        unassigned,
        last,
        ..Answer::accepted(machine.state())
    }
}
