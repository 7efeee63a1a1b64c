//! Images written, made ones of the first edition or not, damaged, read, and
//! written again, with lent parts of the right and of wrong lengths.

use std::fmt::Write;

use super::damage::{damage, make_first_edition, put_state, FIRST_EDITION, KINDS, PLACES, SECOND_EDITION};
use super::{fill, spoiled, state, sum_of, Sum, WAYS};
use crate::seeds::Seeds;
use crate::state::{FLAG_IDLE, FLAG_NO_SAMPLE};
use crate::{read_image, write_image, Answer, State, IMAGE_SIZE, MEMORY_SIZE};

/// Lines of the second part of the output.
const LINES: u32 = 128;
/// Cases of one of these lines.
const CASES: u32 = 20;

/// The length of a part: the whole, or less.
fn size(seeds: &mut Seeds, whole: usize) -> usize {
    let less = usize::from(seeds.below(whole as u16));
    if seeds.once_in(2) {
        less
    } else {
        whole
    }
}

/// A read-only address: the first, the last, or any.
pub(super) fn any_read_only(seeds: &mut Seeds) -> u32 {
    let address = match seeds.below(6) {
        0 => 0,
        1 => 2,
        2 => 16382,
        3 => 16384,
        _ => 2 * seeds.below(8193),
    };
    u32::from(address)
}

/// A state, well formed or not.
fn any_state(seeds: &mut Seeds, state: State) -> State {
    let way = seeds.below(2 * WAYS);
    if way < WAYS {
        spoiled(seeds, state, way)
    } else {
        state
    }
}

/// The answer of reading the image, and the sums of all answers of the case, of
/// the memory and of the image.
struct Outcome {
    answer: Answer,
    answers: u32,
    memory: u32,
    image: u32,
}

struct Lent {
    memory: Vec<u8>,
    image: Vec<u8>,
    /// What was read, written again.
    again: Vec<u8>,
}

impl Lent {
    /// Writes an image, makes it one of the edition, and damages it. The sum is of
    /// the answers. A state may have both flags: its image then has them too, and
    /// the sum is also of the image as the refused writes left it.
    fn write(&mut self, seeds: &mut Seeds, edition: u16, kind: u16, place: u16) -> Sum {
        fill(&mut self.memory, seeds);
        let flags = seeds.below(4);
        let mut state = state(seeds, flags);
        state.read_only = any_read_only(seeds);

        let given = any_state(seeds, state);
        let from = size(seeds, MEMORY_SIZE);
        let to = size(seeds, IMAGE_SIZE);
        let answer = write_image(given, &self.memory[..from], &mut self.image[..to]);
        let mut sum = Sum(u32::from(answer.number));
        sum.mix_state(&answer.state);

        let answer = write_image(state, &self.memory, &mut self.image);
        sum.mix(u32::from(answer.number));
        sum.mix_state(&answer.state);

        if state.flags == FLAG_IDLE | FLAG_NO_SAMPLE {
            // Both writes were refused: the image is still what the case before left.
            sum.mix_bytes(&self.image);
            // The case is to have an image of its own all the same.
            write_image(State { flags: 0, ..state }, &self.memory, &mut self.image);
            put_state(&mut self.image, &state, SECOND_EDITION);
        }
        if edition == FIRST_EDITION {
            make_first_edition(&mut self.image);
        }
        damage(&mut self.image, seeds, state, edition, kind, place);
        sum
    }

    /// One case: the memory is left as the image is read into it.
    fn one(&mut self, seeds: &mut Seeds, edition: u16, kind: u16, place: u16) -> Outcome {
        let mut sum = self.write(seeds, edition, kind, place);
        fill(&mut self.memory, seeds);

        let from = size(seeds, IMAGE_SIZE);
        let to = size(seeds, MEMORY_SIZE);
        let answer = read_image(&self.image[..from], &mut self.memory[..to]);
        sum.mix(u32::from(answer.number));
        sum.mix(u32::from(answer.block));
        sum.mix_state(&answer.state);
        sum.mix_bytes(&self.memory);

        let answer = read_image(&self.image, &mut self.memory);
        sum.mix_state(&answer.state);
        if answer.number == Answer::ACCEPTED {
            let written = write_image(answer.state, &self.memory, &mut self.again);
            sum.mix(u32::from(written.number));
            sum.mix_state(&written.state);
            sum.mix_bytes(&self.again);
        }
        Outcome {
            answer,
            answers: sum.0,
            memory: sum_of(&self.memory),
            image: sum_of(&self.image),
        }
    }

    /// Cases with any damage.
    fn line(&mut self, seeds: &mut Seeds) -> String {
        let mut accepted = 0;
        let mut sum = Sum::default();
        for _ in 0..CASES {
            let edition = 1 + seeds.below(2);
            let kind = seeds.below(2 * KINDS);
            let place = seeds.below(PLACES);
            let outcome = self.one(seeds, edition, kind, place);
            sum.mix(u32::from(outcome.answer.number));
            sum.mix(u32::from(outcome.answer.block));
            sum.mix(outcome.answers);
            sum.mix(outcome.memory);
            sum.mix(outcome.image);
            if outcome.answer.number == Answer::ACCEPTED {
                accepted += 1;
            }
        }
        format!("{accepted} {:08x}\n", sum.0)
    }
}

/// Memory and image of one byte more.
fn longer() -> String {
    let mut memory = [0; MEMORY_SIZE + 1];
    let mut image = [0; IMAGE_SIZE + 1];
    let answers = [
        write_image(State::BLANK, &memory, &mut image[..IMAGE_SIZE]),
        write_image(State::BLANK, &memory[..MEMORY_SIZE], &mut image),
        read_image(&image[..IMAGE_SIZE], &mut memory),
        read_image(&image, &mut memory[..MEMORY_SIZE]),
    ];
    let mut text = String::new();
    for answer in answers {
        let _ = write!(text, "{} ", answer.number);
    }
    let _ = writeln!(text, "{:08x} {:08x}", sum_of(&memory), sum_of(&image));
    text
}

pub fn expect() -> String {
    let mut text = longer();
    let mut seeds = Seeds(17408);
    let mut lent = Lent {
        memory: vec![0; MEMORY_SIZE],
        image: vec![0; IMAGE_SIZE],
        again: vec![0; IMAGE_SIZE],
    };
    for kind in 0..KINDS {
        for place in 0..PLACES {
            for edition in FIRST_EDITION..=SECOND_EDITION {
                let outcome = lent.one(&mut seeds, edition, kind, place);
                let Answer { number, block, .. } = outcome.answer;
                let (answers, memory, image) = (outcome.answers, outcome.memory, outcome.image);
                let _ = writeln!(
                    text,
                    "{kind} {edition} {number} {block} {answers:08x} {memory:08x} {image:08x}"
                );
            }
        }
    }
    for _ in 0..LINES {
        text += &lent.line(&mut seeds);
    }
    text
}
