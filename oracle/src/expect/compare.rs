//! Pairs of images of either edition, damaged or not, compared in both orders. Their
//! states and memories differ as a case says; the first is compared with itself too.

use std::fmt::Write;

use super::damage::{
    damage, make_first_edition, FILLER, FIRST_EDITION, KINDS, NO_DAMAGE, PLACES, SECOND_EDITION,
};
use super::images::any_read_only;
use super::{fill, state, Sum};
use crate::seeds::Seeds;
use crate::{compare_images, write_image, Answer, Compared, State, IMAGE_SIZE, LISTED_RUNS, MEMORY_SIZE};

/// The numbers of a list of runs.
const LIST: usize = 2 * LISTED_RUNS;

/// Lines of the last part of the output.
const LINES: u32 = 128;
/// Cases of one of these lines.
const CASES: u32 = 20;
/// The kinds of damage that these cases draw from; most are none.
const DRAWN_KINDS: u16 = 96;

/// All pairs of editions.
const EDITIONS: [(u16, u16); 4] = [
    (FIRST_EDITION, FIRST_EDITION),
    (FIRST_EDITION, SECOND_EDITION),
    (SECOND_EDITION, FIRST_EDITION),
    (SECOND_EDITION, SECOND_EDITION),
];

/// Start, length, period and count of the first part's patterns.
const PATTERNS: [(u16, u16, u16, u16); 28] = [
    (0, 0, 1, 0),
    (0, 1, 1, 1),
    (16383, 1, 1, 1),
    (0, 16384, 16384, 1),
    (0, 1, 2, 255),
    (0, 1, 2, 256),
    (0, 1, 2, 257),
    (0, 1, 2, 258),
    (1, 3, 5, 255),
    (1, 3, 5, 256),
    (1, 3, 5, 257),
    (1, 3, 5, 258),
    (0, 1, 2, 8192),
    (1, 1, 2, 8192),
    (507, 2, 508, 32),
    (506, 2, 508, 32),
    (508, 1, 508, 32),
    (506, 1, 2, 2),
    (507, 1, 2, 2),
    (500, 3000, 3000, 1),
    (16256, 128, 128, 1),
    (16255, 129, 129, 1),
    (15873, 1, 2, 256),
    (15871, 1, 2, 257),
    (0, 508, 1016, 17),
    (2, 2, 4, 4096),
    (0, 16383, 16383, 1),
    (1, 16383, 16383, 1),
];

/// Which bytes of the memory are changed: `length` bytes at `start`, and so on
/// `count` times, a `period` apart; or, if `sparse` is not 0, one in `sparse`.
#[derive(Clone, Copy)]
struct Pattern {
    start: u16,
    length: u16,
    period: u16,
    count: u16,
    sparse: u16,
}

impl Pattern {
    const NONE: Pattern = Pattern {
        start: 0,
        length: 0,
        period: 1,
        count: 0,
        sparse: 0,
    };

    fn any(seeds: &mut Seeds) -> Pattern {
        match seeds.below(4) {
            0 => Pattern::NONE,
            1 => {
                let start = seeds.below(16384);
                let length = 1 + seeds.below(600);
                Pattern {
                    start,
                    length,
                    period: length + 1 + seeds.below(600),
                    count: seeds.below(300),
                    sparse: 0,
                }
            }
            2 => Pattern {
                sparse: 1 + seeds.below(64),
                ..Pattern::NONE
            },
            _ => {
                let start = seeds.below(600);
                let length = 1 + seeds.below(3);
                Pattern {
                    start,
                    length,
                    period: length + 1 + seeds.below(3),
                    count: 250 + seeds.below(16),
                    sparse: 0,
                }
            }
        }
    }

    fn changes(&self, seeds: &mut Seeds, address: u16) -> bool {
        if self.sparse != 0 {
            return seeds.once_in(self.sparse);
        }
        address.checked_sub(self.start).is_some_and(|from_start| {
            from_start / self.period < self.count && from_start % self.period < self.length
        })
    }

    fn apply(&self, seeds: &mut Seeds, memory: &mut [u8]) {
        for (address, byte) in (0..).zip(memory) {
            if self.changes(seeds, address) {
                let difference = 1 + seeds.below(255);
                *byte = byte.wrapping_add(difference as u8);
            }
        }
    }
}

fn any_edition(seeds: &mut Seeds) -> u16 {
    1 + seeds.below(2)
}

/// A state whose fields can each be changed alone and leave it well formed.
fn base(seeds: &mut Seeds) -> State {
    let flags = seeds.below(3);
    let mut state = state(seeds, flags);
    state.read_only = any_read_only(seeds);
    // the read register need not follow; port 0 has no latch, port 1 can have one
    state.psi.control_and_masks |= 1;
    state.psi.directions |= 2;
    state.psi.latches &= 0xFFFE;
    state
}

/// The state with another number in each field of the mask.
fn changed(state: State, mask: u16) -> State {
    let mut state = state;
    let psi = &mut state.psi;
    for k in 0..16 {
        if mask >> k & 1 == 0 {
            continue;
        }
        match k {
            2 => state.wp = state.wp.wrapping_add(2),
            3 => state.pc = state.pc.wrapping_add(2),
            4 => state.st = state.st.wrapping_add(1),
            5 => state.flags = (state.flags + 1) % 3,
            6 => psi.control_and_masks = psi.control_and_masks.wrapping_add(2),
            7 => psi.directions ^= 1,
            8 => psi.latches ^= 2,
            9 => psi.load = (psi.load + 1) % 16384,
            10 => psi.decrementer = (psi.decrementer + 1) % 16384,
            11 => psi.read_register = (psi.read_register + 1) % 16384,
            12 => psi.phase = (psi.phase + 1) % 64,
            13 => psi.pending = 1 - psi.pending,
            14 => state.read_only = (state.read_only + 2) % 16386,
            // the format and the edition, and no field
            _ => {}
        }
    }
    state
}

/// What becomes of a written image.
#[derive(Clone, Copy)]
struct Make {
    edition: u16,
    kind: u16,
    place: u16,
}

impl Make {
    fn sound(edition: u16) -> Make {
        Make {
            edition,
            kind: NO_DAMAGE,
            place: 0,
        }
    }
}

#[derive(Clone, Copy)]
struct Case {
    pattern: Pattern,
    mask: u16,
    /// The read-only address before the change is that of the first edition.
    nothing_read_only: bool,
    first: Make,
    second: Make,
}

impl Case {
    fn new(pattern: Pattern, mask: u16, first: Make, second: Make) -> Case {
        Case {
            pattern,
            mask,
            nothing_read_only: false,
            first,
            second,
        }
    }

    /// Only the memory differs.
    fn of_pattern(start: u16, length: u16, period: u16, count: u16) -> Case {
        let pattern = Pattern {
            start,
            length,
            period,
            count,
            sparse: 0,
        };
        let make = Make::sound(SECOND_EDITION);
        Case::new(pattern, 0, make, make)
    }

    /// The fields of a mask are changed, and the editions may differ.
    fn of_fields(mask: u16, (first, second): (u16, u16)) -> Case {
        Case::new(Pattern::NONE, mask, Make::sound(first), Make::sound(second))
    }

    /// Nothing but the editions may differ.
    fn of_editions(editions: (u16, u16)) -> Case {
        Case {
            nothing_read_only: true,
            ..Case::of_fields(0, editions)
        }
    }

    /// One image or both are damaged: those are of this edition.
    fn of_damage(seeds: &mut Seeds, kind: u16, on_first: bool, on_second: bool, edition: u16) -> Case {
        let pattern = Pattern::any(seeds);
        let mask = seeds.word();
        let other = any_edition(seeds);
        let mut make = |damaged| Make {
            edition: if damaged { edition } else { other },
            kind: if damaged { kind } else { NO_DAMAGE },
            place: seeds.below(PLACES),
        };
        Case::new(pattern, mask, make(on_first), make(on_second))
    }

    /// The first image has damage of this kind, the second none.
    fn of_first_damage(seeds: &mut Seeds, kind: u16) -> Case {
        let pattern = Pattern::any(seeds);
        let mask = seeds.word();
        let first = Make {
            kind,
            ..Make::sound(any_edition(seeds))
        };
        Case::new(pattern, mask, first, Make::sound(any_edition(seeds)))
    }

    /// Either image may be damaged; half of the cases change no field.
    fn any(seeds: &mut Seeds) -> Case {
        let pattern = Pattern::any(seeds);
        let word = seeds.word();
        let mask = if seeds.once_in(2) { 0 } else { word };
        let editions = [any_edition(seeds), any_edition(seeds)];
        let kinds = [seeds.below(DRAWN_KINDS), seeds.below(DRAWN_KINDS)];
        let places = [seeds.below(PLACES), seeds.below(PLACES)];
        let make = |n: usize| Make {
            edition: editions[n],
            kind: kinds[n],
            place: places[n],
        };
        Case::new(pattern, mask, make(0), make(1))
    }
}

/// The answer to the first with the second, the outermost numbers of its list, the
/// sum of all of them, and the sum of the two other comparisons.
struct Outcome {
    answer: Compared,
    ends: [u32; 4],
    listed: u32,
    rest: u32,
}

fn numbers_of(answer: &Compared) -> [u32; 5] {
    let Compared {
        number,
        image,
        block,
        fields,
        runs,
    } = *answer;
    [number.into(), image.into(), block.into(), fields, runs]
}

/// The numbers with a space after each.
fn spaced(numbers: impl IntoIterator<Item = u32>) -> String {
    numbers.into_iter().fold(String::new(), |mut text, number| {
        let _ = write!(text, "{number} ");
        text
    })
}

impl Outcome {
    fn numbers(&self) -> impl Iterator<Item = u32> {
        numbers_of(&self.answer).into_iter().chain(self.ends)
    }

    fn line(&self) -> String {
        let numbers = spaced(self.numbers());
        format!("{numbers}{:08x} {:08x}\n", self.listed, self.rest)
    }
}

/// The memory, an image and one byte more twice, and the list of runs.
struct Lent {
    memory: Vec<u8>,
    first: Vec<u8>,
    second: Vec<u8>,
    list: [u32; LIST],
}

impl Lent {
    fn new() -> Lent {
        Lent {
            memory: vec![0; MEMORY_SIZE],
            first: vec![0; IMAGE_SIZE + 1],
            second: vec![0; IMAGE_SIZE + 1],
            list: [u32::MAX; LIST],
        }
    }

    fn make(&mut self, seeds: &mut Seeds, case: Case) {
        let first = &mut self.first[..IMAGE_SIZE];
        let second = &mut self.second[..IMAGE_SIZE];
        fill(&mut self.memory, seeds);
        let mut first_state = base(seeds);
        if case.nothing_read_only {
            first_state.read_only = State::NO_READ_ONLY;
        }
        write_image(first_state, &self.memory, first);
        case.pattern.apply(seeds, &mut self.memory);
        let second_state = changed(first_state, case.mask);
        write_image(second_state, &self.memory, second);

        let mut images = [
            (first, first_state, case.first),
            (second, second_state, case.second),
        ];
        for (image, _, make) in &mut images {
            if make.edition == FIRST_EDITION {
                make_first_edition(image);
            }
        }
        for (image, state, make) in images {
            damage(image, seeds, state, make.edition, make.kind, make.place);
        }
    }

    fn listed(&self) -> u32 {
        let mut sum = Sum::default();
        sum.mix_all(self.list);
        sum.0
    }

    fn compare(&mut self) -> Outcome {
        let first = &self.first[..IMAGE_SIZE];
        let second = &self.second[..IMAGE_SIZE];
        let answer = compare_images(first, second, &mut self.list);
        let ends = [0, 1, LIST - 2, LIST - 1].map(|n| self.list[n]);
        let listed = self.listed();

        let mut rest = Sum::default();
        for (one, other) in [(second, first), (first, first)] {
            let answer = compare_images(one, other, &mut self.list);
            rest.mix_all(numbers_of(&answer));
            rest.mix_all(self.list);
        }
        Outcome {
            answer,
            ends,
            listed,
            rest: rest.0,
        }
    }

    fn one(&mut self, seeds: &mut Seeds, case: Case) -> Outcome {
        self.make(seeds, case);
        self.compare()
    }

    /// A case with the images cut short, whole, and too long; the first has damage
    /// of this kind.
    fn lengths(&mut self, seeds: &mut Seeds, kind: u16) -> String {
        const LENGTHS: [usize; 5] = [0, 1, IMAGE_SIZE - 1, IMAGE_SIZE, IMAGE_SIZE + 1];
        let case = Case::of_first_damage(seeds, kind);
        self.make(seeds, case);
        let mut text = String::new();
        for n in LENGTHS {
            for m in LENGTHS {
                let answer = compare_images(&self.first[..n], &self.second[..m], &mut self.list);
                let numbers = spaced(numbers_of(&answer));
                let _ = writeln!(text, "{numbers}{:08x}", self.listed());
            }
        }
        text
    }

    /// Cases of any kind.
    fn line(&mut self, seeds: &mut Seeds) -> String {
        let mut accepted = 0;
        let mut sum = Sum::default();
        for _ in 0..CASES {
            let case = Case::any(seeds);
            let outcome = self.one(seeds, case);
            sum.mix_all(outcome.numbers());
            sum.mix(outcome.listed);
            sum.mix(outcome.rest);
            if outcome.answer.number == Answer::ACCEPTED {
                accepted += 1;
            }
        }
        format!("{accepted} {:08x}\n", sum.0)
    }
}

pub fn expect() -> String {
    let mut text = String::new();
    let mut seeds = Seeds(256);
    let mut lent = Lent::new();
    for (start, length, period, count) in PATTERNS {
        let case = Case::of_pattern(start, length, period, count);
        text += &lent.one(&mut seeds, case).line();
    }
    for k in 2..=14 {
        for editions in EDITIONS {
            let case = Case::of_fields(1 << k, editions);
            text += &lent.one(&mut seeds, case).line();
        }
    }
    for editions in EDITIONS {
        let case = Case::of_editions(editions);
        text += &lent.one(&mut seeds, case).line();
    }
    for kind in 0..KINDS {
        for (on_first, on_second) in [(true, false), (false, true), (true, true)] {
            for edition in FIRST_EDITION..=SECOND_EDITION {
                let case = Case::of_damage(&mut seeds, kind, on_first, on_second, edition);
                text += &lent.one(&mut seeds, case).line();
            }
        }
    }
    for kind in [NO_DAMAGE, FILLER] {
        text += &lent.lengths(&mut seeds, kind);
    }
    for _ in 0..LINES {
        text += &lent.line(&mut seeds);
    }
    text
}

#[cfg(test)]
mod case_tests;
