//! The cases are what they are meant to be.

use super::*;
use crate::read_image;

/// The addresses that a pattern changes, and the memory has no others changed.
fn applied(seeds: &mut Seeds, pattern: Pattern) -> Vec<usize> {
    let mut before = vec![0; MEMORY_SIZE];
    fill(&mut before, seeds);
    let mut after = before.clone();
    pattern.apply(seeds, &mut after);
    (0..MEMORY_SIZE).filter(|&i| before[i] != after[i]).collect()
}

/// How many times an address follows one that is not its neighbour.
fn stretches(addresses: &[usize]) -> usize {
    let gaps = addresses.windows(2).filter(|pair| pair[0] + 1 < pair[1]).count();
    gaps + usize::from(!addresses.is_empty())
}

#[test]
fn every_mask_gives_a_well_formed_state_with_these_fields_changed() {
    let mut seeds = Seeds(8);
    let mut memory = vec![0; MEMORY_SIZE];
    let mut image = vec![0; IMAGE_SIZE];
    for mask in 0..=0xFFFF {
        let before = base(&mut seeds);
        let after = changed(before, mask);
        assert!(before.is_well_formed(), "{before:?}");
        assert!(after.is_well_formed(), "{after:?}");
        // some of them in full
        if mask % 11 != 0 {
            continue;
        }
        let words = |state: State, image: &mut [u8], memory: &mut [u8]| -> Vec<u16> {
            assert_eq!(write_image(state, memory, image).number, 0);
            assert_eq!(read_image(image, memory).state, state);
            image[2..32]
                .chunks(2)
                .map(|two| u16::from_be_bytes([two[0], two[1]]))
                .collect()
        };
        let one = words(before, &mut image, &mut memory);
        let other = words(after, &mut image, &mut memory);
        for k in 0..15 {
            let meant = (2..=14).contains(&k) && mask >> k & 1 == 1;
            assert_eq!(one[k] != other[k], meant, "{mask:04X} {k}");
        }
    }
}

#[test]
fn patterns_change_the_bytes_that_they_name() {
    let mut seeds = Seeds(9);
    let mut changes = |start, length, period, count| {
        let case = Case::of_pattern(start, length, period, count);
        applied(&mut seeds, case.pattern)
    };
    assert_eq!(changes(0, 0, 1, 0), []);
    assert_eq!(changes(0, 1, 1, 1), [0]);
    assert_eq!(changes(16383, 1, 1, 1), [16383]);
    assert_eq!(changes(0, 16384, 16384, 1), Vec::from_iter(0..16384));
    assert_eq!(changes(507, 2, 508, 2), [507, 508, 1015, 1016]);
    assert_eq!(changes(1, 3, 5, 2), [1, 2, 3, 6, 7, 8]);
    assert_eq!(changes(16382, 3, 5, 2), [16382, 16383]);
    let runs_of_each = [
        0, 1, 1, 1, 255, 256, 257, 258, 255, 256, 257, 258, 8192, 8192, 32, 32, 32, 2, 2, 1, 1, 1, 256, 257,
        17, 4096, 1, 1,
    ];
    for ((start, length, period, count), runs) in PATTERNS.into_iter().zip(runs_of_each) {
        assert_eq!(stretches(&changes(start, length, period, count)), runs);
    }
}

#[test]
fn sparse_patterns() {
    let mut seeds = Seeds(10);
    for sparse in [1, 2, 7, 64] {
        let pattern = Pattern {
            sparse,
            ..Pattern::NONE
        };
        let share = MEMORY_SIZE / usize::from(sparse);
        let count = applied(&mut seeds, pattern).len();
        assert!(
            (share * 3 / 4..=share * 5 / 4).contains(&count),
            "{sparse} {count}"
        );
    }
    assert_eq!(stretches(&[3, 4, 6, 9, 10]), 3);
}

#[test]
fn any_pattern_has_fewer_and_more_runs_than_are_listed() {
    let mut seeds = Seeds(11);
    let mut seen = [0; 4];
    for _ in 0..400 {
        let pattern = Pattern::any(&mut seeds);
        let runs = stretches(&applied(&mut seeds, pattern));
        let class = match runs {
            0 => 0,
            1..=255 => 1,
            256 => 2,
            _ => 3,
        };
        seen[class] += 1;
    }
    assert!(
        seen[0] > 50 && seen[1] > 50 && seen[2] > 1 && seen[3] > 50,
        "{seen:?}"
    );
}

/// How many lines each part of the output has.
const PARTS: [usize; 7] = [28, 13 * 4, 4, 24 * 3 * 2, 25, 25, 128];

/// The words of the lines of each part.
fn parts(text: &str) -> [Vec<Vec<&str>>; PARTS.len()] {
    let mut lines = text.lines().map(|line| line.split(' ').collect());
    let parts = PARTS.map(|count| lines.by_ref().take(count).collect());
    assert_eq!(lines.next(), None);
    parts
}

#[test]
fn the_output_has_its_lines() {
    let text = expect();
    assert_eq!(text.lines().count(), 406);
    let words_in_each = [11, 11, 11, 11, 6, 6, 2];
    for ((lines, count), words) in parts(&text).into_iter().zip(PARTS).zip(words_in_each) {
        assert_eq!(lines.len(), count);
        assert!(lines.iter().all(|line| line.len() == words));
    }
}

#[test]
fn sound_images_are_accepted_and_show_their_fields() {
    let text = expect();
    let [patterns, fields, editions, ..] = parts(&text);
    for line in patterns.iter().chain(&fields).chain(&editions) {
        assert_eq!(line[..3], ["0", "0", "0"]);
    }
    for (n, line) in fields.iter().enumerate() {
        let (k, first, second) = (2 + n / 4, n / 2 % 2, n % 2);
        let weights: u32 = line[3].parse().unwrap();
        // the field, where both editions have it, and the edition where they differ
        if k < 14 {
            assert_eq!(weights & 0x3FFF, 1 << k | u32::from(first != second) << 1);
        }
        if first == second {
            assert_eq!(weights >> 14, u32::from(k == 14 && first == 1));
        }
        assert_eq!(line[4..9], ["0"; 5]);
    }
    // The edition alone, as the read-only address is the first edition's.
    for (line, weights) in editions.iter().zip(["0", "2", "2", "0"]) {
        assert_eq!(line[3], weights);
        assert_eq!(line[4..9], ["0"; 5]);
    }
}

#[test]
fn every_refusal_of_damage_is_met_in_either_image() {
    let text = expect();
    let [_, _, _, damaged, ..] = parts(&text);
    for number in ["6", "7", "8", "9"] {
        for image in ["1", "2"] {
            let met = damaged.iter().filter(|line| line[..2] == [number, image]);
            assert!(met.count() > 1, "{number} {image}");
        }
    }
}

#[test]
fn lengths_are_judged_after_all_of_the_first_image() {
    let text = expect();
    let [.., sound, damaged, _] = parts(&text);
    let check = |lines: Vec<Vec<&str>>, first_is_sound: bool| {
        for (n, line) in lines.iter().enumerate() {
            let expected = match (n / 5, n % 5) {
                (3, _) if !first_is_sound => ["9", "1", "0"],
                (3, 3) => ["0", "0", "0"],
                (3, _) => ["5", "2", "0"],
                _ => ["5", "1", "0"],
            };
            assert_eq!(line[..3], expected);
            if expected[0] != "0" {
                assert_eq!(line[3..], ["0", "0", "00000000"]);
            }
        }
    };
    check(sound, true);
    check(damaged, false);
}

#[test]
fn a_fair_share_of_the_mixed_cases_is_accepted() {
    let text = expect();
    let [.., mixed] = parts(&text);
    let accepted: u32 = mixed.iter().map(|line| line[0].parse::<u32>().unwrap()).sum();
    assert!((1000..2000).contains(&accepted), "{accepted}");
}
