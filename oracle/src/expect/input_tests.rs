//! The states that the test programs start from are what they are meant to be.

use super::*;
use crate::Memory;

fn start(seeds: &mut Seeds, flags: u16) -> (State, Box<Memory>) {
    let mut memory: Box<Memory> = Box::new([0; MEMORY_SIZE]);
    fill(&mut memory[..], seeds);
    let mut state = state(seeds, flags);
    assert_eq!(state.read_only, 16384);
    state.read_only = read_only(seeds, &state, &memory[..]);
    (state, memory)
}

#[test]
fn read_only_addresses_are_well_formed() {
    let mut seeds = Seeds(3);
    let mut inside = 0;
    for _ in 0..2000 {
        let (state, _) = start(&mut seeds, 0);
        assert!(state.is_well_formed(), "{state:?}");
        if ![0, 2, 16382, 16384].contains(&state.read_only) {
            inside += 1;
        }
    }
    // about half of them, those of the last four choices
    assert!((900..1100).contains(&inside), "{inside}");
}

#[test]
fn spoiled_states_are_not_well_formed() {
    let mut seeds = Seeds(4);
    for i in 0..13 * 200 {
        let way = i % WAYS;
        let (good, _) = start(&mut seeds, 0);
        let bad = spoiled(&mut seeds, good, way);
        assert!(!bad.is_well_formed(), "{way}");
        // Which ways reach the read-only address, and which do not fit a word.
        let mended = State {
            read_only: good.read_only,
            ..bad
        };
        assert_eq!(mended == good, way >= OLD_WAYS, "{way}");
        assert_eq!(mended == bad, way < OLD_WAYS, "{way}");
        assert_eq!(bad.read_only < 65536, way < WORD_WAYS, "{way}");
        let cut = State {
            read_only: bad.read_only % 65536,
            ..bad
        };
        assert_eq!(cut.is_well_formed(), way >= WORD_WAYS, "{way}");
    }
}

#[test]
fn the_read_only_part_matters_in_a_fair_share_of_the_runs() {
    let text = runs::expect();
    let lines: Vec<&str> = text.lines().collect();
    assert_eq!(lines.len(), 1 + 128 + 64 + 64);
    for line in &lines[193..] {
        let (other, _) = line.split_once(' ').unwrap();
        let other: u32 = other.parse().unwrap();
        assert!((128 / 4..128 * 7 / 8).contains(&other), "{line}");
    }
}
