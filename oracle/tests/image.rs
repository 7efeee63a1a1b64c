//! Images: layout, round trips, refusals in order.
mod common;
use common::images::*;
use oracle::{read_image, write_image, Answer, Psi, State, Step, IMAGE_SIZE, MEMORY_SIZE};

fn refused(number: u16, block: u16, state: State) -> Answer {
    Answer {
        number,
        block,
        steps: 0,
        unassigned: 0,
        last: Step::Nothing,
        state,
    }
}

/// Reading it must be refused so, and store nothing.
fn expect(image: &[u8], number: u16, block: u16) {
    let mut memory = vec![0x77; MEMORY_SIZE];
    assert_eq!(
        read_image(image, &mut memory),
        refused(number, block, State::BLANK)
    );
    assert!(memory.iter().all(|&byte| byte == 0x77));
}

#[test]
fn layout() {
    let (_, memory) = sample();
    let image = sample_image();
    assert_eq!(image.len(), 17408);
    for block in 0..34 {
        assert_eq!(usize::from(word(&image, 512 * block)), block);
        let sum: u32 = (0..256)
            .map(|i| u32::from(word(&image, 512 * block + 2 * i)))
            .sum();
        assert_eq!(sum % 65536, 65535);
    }
    let fields = [
        0x9901, 2, 0x8302, 0xFFFE, 0xA5C3, 2, 0x1235, 0xF00F, 0x8001, 16383, 300, 301, 63, 1, 0x2A5C,
    ];
    for (i, field) in fields.iter().enumerate() {
        assert_eq!(word(&image, 2 + 2 * i), *field);
    }
    assert!(image[2 + 30..510].iter().all(|&byte| byte == 0));
    for (address, &byte) in memory.iter().enumerate() {
        assert_eq!(image[512 * (1 + address / 508) + 2 + address % 508], byte);
    }
    assert!(image[33 * 512 + 2 + 128..33 * 512 + 510]
        .iter()
        .all(|&byte| byte == 0));
}

#[test]
fn round_trips() {
    let (state, memory) = sample();
    let image = sample_image();
    let mut read = vec![0; MEMORY_SIZE];
    assert_eq!(read_image(&image, &mut read), refused(0, 0, state));
    assert_eq!(read, memory);
    let mut again = vec![0; IMAGE_SIZE];
    write_image(state, &read, &mut again);
    assert_eq!(again, image);
    // All flags that a state may have.
    for flags in 0..=2 {
        let state = State { flags, ..state };
        let mut image = vec![0xEE; IMAGE_SIZE];
        assert_eq!(write_image(state, &memory, &mut image), refused(0, 0, state));
        assert_eq!(read_image(&image, &mut read), refused(0, 0, state));
    }
    // The blank state and a blank memory.
    let mut image = vec![0xEE; IMAGE_SIZE];
    write_image(State::BLANK, &vec![0; MEMORY_SIZE], &mut image);
    let mut read = vec![1; MEMORY_SIZE];
    assert_eq!(read_image(&image, &mut read), refused(0, 0, State::BLANK));
    assert_eq!(read, vec![0; MEMORY_SIZE]);
}

#[test]
fn refusals_of_writing_in_order() {
    let (good, memory) = sample();
    let bad = State {
        flags: 7,
        psi: Psi {
            load: 20000,
            ..good.psi
        },
        ..good
    };
    let mut image = vec![0xEE; IMAGE_SIZE];
    let mut short = vec![0xEE; IMAGE_SIZE - 1];
    let mut long = vec![0xEE; IMAGE_SIZE + 1];
    assert_eq!(write_image(bad, &memory[1..], &mut short), refused(1, 0, bad));
    assert_eq!(write_image(good, &[], &mut image), refused(1, 0, good));
    assert_eq!(write_image(bad, &memory, &mut short), refused(5, 0, bad));
    assert_eq!(write_image(good, &memory, &mut long), refused(5, 0, good));
    assert_eq!(write_image(good, &memory, &mut []), refused(5, 0, good));
    assert_eq!(write_image(bad, &memory, &mut image), refused(2, 0, bad));
    for untouched in [&image, &short, &long] {
        assert!(untouched.iter().all(|&byte| byte == 0xEE));
    }
}

#[test]
fn refusals_of_reading_sizes() {
    let image = sample_image();
    for size in [0, MEMORY_SIZE - 1, MEMORY_SIZE + 1] {
        let mut memory = vec![0x77; size];
        assert_eq!(read_image(&[], &mut memory), refused(1, 0, State::BLANK));
        assert_eq!(read_image(&image, &mut memory), refused(1, 0, State::BLANK));
        assert!(memory.iter().all(|&byte| byte == 0x77));
    }
    expect(&[], 5, 0);
    expect(&image[1..], 5, 0);
    let mut long = image;
    long.push(0);
    expect(&long, 5, 0);
}

#[test]
fn refusals_of_blocks() {
    for block in 0..34usize {
        // 6: any byte changed
        for at in [0, 1, 2, 300, 509, 510, 511] {
            let mut image = sample_image();
            image[512 * block + at] ^= 0x10;
            expect(&image, 6, block as u16);
        }
        // 7: number wrong, check right
        for number in [block as u16 + 1, block as u16 ^ 0x8000, 0xFFFF] {
            let mut image = sample_image();
            put(&mut image, 512 * block, number);
            mend(&mut image, block);
            expect(&image, 7, block as u16);
            // Both wrong in one block: 6 first
            image[512 * block + 511] ^= 1;
            expect(&image, 6, block as u16);
        }
    }
    // Block by block: a wrong number in 3 comes before a wrong check in 5.
    let mut image = sample_image();
    put(&mut image, 512 * 3, 99);
    mend(&mut image, 3);
    image[512 * 5 + 100] ^= 1;
    expect(&image, 7, 3);
    // And the other way round.
    let mut image = sample_image();
    put(&mut image, 512 * 5, 99);
    mend(&mut image, 5);
    image[512 * 3 + 100] ^= 1;
    expect(&image, 6, 3);
    // Two blocks that changed places: the lower place is named.
    let mut image = sample_image();
    let block: Vec<u8> = image[512 * 7..512 * 8].to_vec();
    image.copy_within(512 * 9..512 * 10, 512 * 7);
    image[512 * 9..512 * 10].copy_from_slice(&block);
    expect(&image, 7, 7);
    // A sum that is right only modulo 65535 is wrong: all-zero block 0.
    let mut image = sample_image();
    image[..512].fill(0);
    expect(&image, 6, 0);
}

#[test]
fn refusals_of_format_and_fields() {
    // 8 before 9, and after 6 and 7 of any block
    for (field, value) in [(0, 0x9902), (0, 0), (1, 0), (1, 3), (1, 0x0101), (1, 0x0102)] {
        let mut image = sample_image();
        put(&mut image, 2 + 2 * field, value);
        mend(&mut image, 0);
        expect(&image, 8, 0);
        put(&mut image, 2 + 2 * 5, 4); // flags
        mend(&mut image, 0);
        expect(&image, 8, 0);
        image[33 * 512 + 200] = 1; // filler with a wrong check
        expect(&image, 6, 33);
        mend(&mut image, 33);
        expect(&image, 8, 0);
    }
    // 9: fields
    for (field, value) in [
        (2, 0x8303),
        (3, 0xFFFF),
        (5, 3),
        (5, 4),
        (6, 0x1234), // control 0, but the read register is not the decrementer
        (7, 0x700F), // latch 15 on an input
        (8, 0x8011),
        (9, 16384),
        (10, 16384),
        (11, 16384),
        (12, 64),
        (13, 2),
        (14, 1),
        (14, 0x2A5D),
        (14, 16383),
        (14, 16385),
        (14, 16386),
        (14, 0xFFFE),
        (14, 0xFFFF),
    ] {
        let mut image = sample_image();
        put(&mut image, 2 + 2 * field, value);
        mend(&mut image, 0);
        expect(&image, 9, 0);
    }
    // 9: every byte of the filler
    let fillers = (2 + 30..510).chain(33 * 512 + 2 + 128..33 * 512 + 510);
    for at in fillers {
        let mut image = sample_image();
        image[at] = 1;
        mend(&mut image, at / 512);
        expect(&image, 9, 0);
    }
    // The last byte of memory is not filler.
    let mut image = sample_image();
    image[33 * 512 + 2 + 127] ^= 0xFF;
    mend(&mut image, 33);
    let (state, mut memory) = sample();
    memory[MEMORY_SIZE - 1] ^= 0xFF;
    let mut read = vec![0; MEMORY_SIZE];
    assert_eq!(read_image(&image, &mut read), refused(0, 0, state));
    assert_eq!(read, memory);
    // ST takes any value.
    let mut image = sample_image();
    put(&mut image, 2 + 2 * 4, 0xFFFF);
    mend(&mut image, 0);
    assert_eq!(read_image(&image, &mut read).state.st, 0xFFFF);
}

#[test]
fn writing_with_both_flags() {
    let (good, memory) = sample();
    for good in [good, State::BLANK] {
        let state = State { flags: 3, ..good };
        let mut image = vec![0xEE; IMAGE_SIZE];
        let mut short = vec![0xEE; IMAGE_SIZE - 1];
        assert_eq!(write_image(state, &memory, &mut image), refused(2, 0, state));
        // 1 and 5 come before.
        assert_eq!(write_image(state, &memory[1..], &mut image), refused(1, 0, state));
        assert_eq!(write_image(state, &memory[1..], &mut short), refused(1, 0, state));
        assert_eq!(write_image(state, &memory, &mut short), refused(5, 0, state));
        for untouched in [&image, &short] {
            assert!(untouched.iter().all(|&byte| byte == 0xEE));
        }
    }
}

#[test]
fn reading_with_both_flags() {
    let mut image = sample_image();
    put(&mut image, 2 + 2 * 5, 3);
    expect(&image, 6, 0);
    mend(&mut image, 0);
    expect(&image, 9, 0);
    // 1 and 5 come before.
    let mut memory = vec![0x77; MEMORY_SIZE - 1];
    assert_eq!(read_image(&image, &mut memory), refused(1, 0, State::BLANK));
    assert!(memory.iter().all(|&byte| byte == 0x77));
    expect(&image[..IMAGE_SIZE - 1], 5, 0);
    // So do 6 and 7 of any block, and 8.
    for block in 0..34 {
        let mut worse = image.clone();
        worse[512 * block + 100] ^= 1;
        expect(&worse, 6, block as u16);
        let mut worse = image.clone();
        put(&mut worse, 512 * block, 77);
        mend(&mut worse, block);
        expect(&worse, 7, block as u16);
    }
    for (field, value) in [(0, 0x9902), (1, 3)] {
        let mut worse = image.clone();
        put(&mut worse, 2 + 2 * field, value);
        mend(&mut worse, 0);
        expect(&worse, 8, 0);
    }
    // The same image with either flag is read.
    for flags in [1, 2] {
        put(&mut image, 2 + 2 * 5, flags);
        mend(&mut image, 0);
        let mut read = vec![0; MEMORY_SIZE];
        let (state, memory) = sample();
        assert_eq!(
            read_image(&image, &mut read),
            refused(0, 0, State { flags, ..state })
        );
        assert_eq!(read, memory);
    }
}

// ---- the two editions ----

/// Reading it must give the sample with this read-only address.
fn expect_read(image: &[u8], read_only: u32) -> State {
    let (state, memory) = sample();
    let state = State { read_only, ..state };
    let mut read = vec![0x77; MEMORY_SIZE];
    assert_eq!(read_image(image, &mut read), refused(0, 0, state));
    assert!(read == memory);
    state
}

#[test]
fn the_first_edition_comes_out_as_the_second() {
    let (_, memory) = sample();
    let first = first_edition();
    let state = expect_read(&first, 16384);
    let mut second = vec![0xEE; IMAGE_SIZE];
    assert_eq!(write_image(state, &memory, &mut second), refused(0, 0, state));
    // Three words of block 0 differ: the edition, the fifteenth word, the check.
    for at in (0..IMAGE_SIZE).step_by(2) {
        let words = (word(&first, at), word(&second, at));
        match at {
            4 => assert_eq!(words, (1, 2)),
            30 => assert_eq!(words, (0, 16384)),
            510 => assert_eq!(words.0.wrapping_sub(words.1), 16385),
            _ => assert_eq!(words.0, words.1),
        }
    }
    // And it is read as the same.
    assert_eq!(expect_read(&second, 16384), state);
}

#[test]
fn the_fifteenth_word() {
    let mut second = sample_image();
    let mut first = first_edition();
    for number in 0..=0xFFFF {
        put(&mut second, 30, number);
        mend(&mut second, 0);
        if number % 2 == 0 && number <= 16384 {
            let state = expect_read(&second, u32::from(number));
            if number % 1024 == 0 || number == 2 || number == 16382 {
                let (_, memory) = sample();
                let mut again = vec![0xEE; IMAGE_SIZE];
                assert_eq!(write_image(state, &memory, &mut again), refused(0, 0, state));
                assert!(again == second);
            }
        } else if number % 64 < 4 {
            expect(&second, 9, 0);
        }
        // It is filler in the first edition.
        if number != 0 && number % 64 < 4 {
            put(&mut first, 30, number);
            mend(&mut first, 0);
            expect(&first, 9, 0);
        }
    }
}

#[test]
fn the_filler_of_the_first_edition() {
    for at in (2 + 28..510).chain(33 * 512 + 2 + 128..33 * 512 + 510) {
        let mut image = first_edition();
        image[at] = 1;
        mend(&mut image, at / 512);
        expect(&image, 9, 0);
    }
    // Fields that are not well formed, as in the second.
    for (field, value) in [(2, 0x8303), (3, 0xFFFF), (5, 3), (9, 16384), (12, 64), (13, 2)] {
        let mut image = first_edition();
        put(&mut image, 2 + 2 * field, value);
        mend(&mut image, 0);
        expect(&image, 9, 0);
    }
}

#[test]
fn editions_that_there_are_not() {
    for edition in [0, 3, 4, 0x0100, 0x0101, 0x0102, 0x0200, 0x8001, 0x8002, 0xFFFF] {
        // 8, with a fifteenth word that would be right or wrong: 8 comes before 9.
        for fifteenth in [0, 2, 16384, 1, 16386, 0xFFFF] {
            let mut image = sample_image();
            put(&mut image, 4, edition);
            put(&mut image, 30, fifteenth);
            expect(&image, 6, 0);
            mend(&mut image, 0);
            expect(&image, 8, 0);
            image[33 * 512 + 200] = 1; // filler
            mend(&mut image, 33);
            expect(&image, 8, 0);
        }
    }
    // A wrong format word, in either edition, with a wrong fifteenth word too.
    for edition in [1, 2] {
        for fifteenth in [0, 1, 16386] {
            let mut image = sample_image();
            put(&mut image, 2, 0x9900);
            put(&mut image, 4, edition);
            put(&mut image, 30, fifteenth);
            mend(&mut image, 0);
            expect(&image, 8, 0);
        }
    }
    // An image of the second edition that is said to be of the first.
    let mut image = sample_image();
    put(&mut image, 4, 1);
    mend(&mut image, 0);
    expect(&image, 9, 0);
    put(&mut image, 30, 0);
    mend(&mut image, 0);
    expect_read(&image, 16384);
    // And the other way round: all of memory is read-only.
    put(&mut image, 4, 2);
    mend(&mut image, 0);
    expect_read(&image, 0);
}

#[test]
fn writing_a_wrong_read_only_address() {
    let (good, memory) = sample();
    let wrong = [
        1,
        16383,
        16385,
        16386,
        32768,
        65535,
        65536,
        65536 + 2,
        65536 + 16384,
    ];
    for read_only in wrong.into_iter().chain([0xFFFF_0000, 4_294_967_295]) {
        let state = State { read_only, ..good };
        let mut image = vec![0xEE; IMAGE_SIZE];
        assert_eq!(write_image(state, &memory, &mut image), refused(2, 0, state));
        // 1 and 5 come before.
        assert_eq!(write_image(state, &memory[1..], &mut image), refused(1, 0, state));
        assert_eq!(write_image(state, &memory, &mut image[1..]), refused(5, 0, state));
        assert!(image.iter().all(|&byte| byte == 0xEE));
    }
}
