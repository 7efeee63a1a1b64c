//! The number of words is the number that the machine fetches, and DATA is what
//! it meets as unassigned.

use super::{list, TEXT_SIZE};
use crate::bus::{Access, MEMORY_SIZE};
use crate::cpu::Machine;
use crate::state::State;

#[test]
fn words_are_those_fetched() {
    // All else is 0, so X only leads to an unassigned word, which fetches nothing.
    let state = State {
        wp: 0x0300,
        pc: 0x0100,
        ..State::BLANK
    };
    for word in 0..=0xFFFF_u16 {
        let mut memory = [0; MEMORY_SIZE];
        memory[0x0100..0x0102].copy_from_slice(&word.to_be_bytes());
        let mut text = [0; TEXT_SIZE];
        let listed = list(&memory, state.pc, &mut text);

        let mut machine = Machine::new(&mut memory, state);
        let step = machine.step(0x003F_FFFF);
        let touched = &machine.bus.touched;
        let fetched = touched
            .iter()
            .filter(|(access, _)| *access == Access::Fetch)
            .count();
        assert_eq!(usize::from(listed.words), fetched, "{word:04X}");

        let data = text[9..].starts_with(b" DATA >");
        let executes = (0x0480..0x04C0).contains(&word);
        assert_eq!(data || executes, step.is_unassigned(), "{word:04X}");
    }
}
