//! Comparing two images: runs, fields, editions, refusals in order.
mod common;
use common::images::*;
use common::Random;
use oracle::{compare_images, read_image, write_image, Answer, Compared, State, IMAGE_SIZE, MEMORY_SIZE};

/// Compares with a list full of old numbers; what is listed comes in pairs.
fn compare(first: &[u8], second: &[u8]) -> (Compared, Vec<[u32; 2]>) {
    let mut list = [0xFFFF_FFFF; 512];
    let answer = compare_images(first, second, &mut list);
    (answer, list.chunks(2).map(|pair| [pair[0], pair[1]]).collect())
}

fn accepted(fields: u32, runs: u32) -> Compared {
    Compared {
        number: 0,
        image: 0,
        block: 0,
        fields,
        runs,
    }
}

fn refused(number: u16, image: u16, block: u16) -> Compared {
    Compared {
        number,
        image,
        block,
        fields: 0,
        runs: 0,
    }
}

fn image_of(memory: &[u8]) -> Vec<u8> {
    let (state, _) = sample();
    let mut image = vec![0; IMAGE_SIZE];
    assert_eq!(write_image(state, memory, &mut image), Answer::accepted(state));
    image
}

/// The sample's image, its memory changed at these addresses.
fn changed_at(addresses: impl IntoIterator<Item = usize>) -> Vec<u8> {
    let (_, mut memory) = sample();
    for address in addresses {
        memory[address] ^= 1 << (address % 8);
    }
    image_of(&memory)
}

/// All runs, listed or not, that a comparison with the sample must find.
fn expect_runs(other: &[u8], runs: &[[u32; 2]]) {
    let mut listed = runs.to_vec();
    listed.resize(256, [0, 0]);
    let answer = accepted(0, runs.len() as u32);
    assert_eq!(compare(&sample_image(), other), (answer, listed.clone()));
    assert_eq!(compare(other, &sample_image()), (answer, listed));
}

/// The whole comparison must be refused so, with nothing listed.
fn expect_refused(first: &[u8], second: &[u8], number: u16, image: u16, block: u16) {
    let expected = refused(number, image, block);
    assert_eq!(compare(first, second), (expected, vec![[0, 0]; 256]));
}

// ---- runs ----

#[test]
fn no_difference() {
    let image = sample_image();
    expect_runs(&image, &[]);
    assert_eq!(compare(&image, &image.clone()).0, accepted(0, 0));
    let blank = {
        let mut image = vec![0; IMAGE_SIZE];
        write_image(State::BLANK, &[0; MEMORY_SIZE], &mut image);
        image
    };
    assert_eq!(compare(&blank, &blank), (accepted(0, 0), vec![[0, 0]; 256]));
}

#[test]
fn one_run() {
    expect_runs(&changed_at([0]), &[[0, 1]]);
    expect_runs(&changed_at([16383]), &[[16383, 1]]);
    expect_runs(&changed_at(0..16384), &[[0, 16384]]);
    expect_runs(&changed_at(0..16383), &[[0, 16383]]);
    expect_runs(&changed_at(1..16384), &[[1, 16383]]);
    for address in 0..16384 {
        if address % 7 == 0 || address % 508 < 2 || address % 508 > 505 {
            expect_runs(&changed_at([address]), &[[address as u32, 1]]);
        }
    }
}

#[test]
fn any_difference_of_a_byte_counts() {
    let (_, memory) = sample();
    for difference in 1..=255 {
        let mut other = memory.clone();
        other[5000] = other[5000].wrapping_add(difference);
        expect_runs(&image_of(&other), &[[5000, 1]]);
    }
}

#[test]
fn runs_at_the_ends_of_blocks() {
    for end in (508..16384).step_by(508) {
        let at = end as u32;
        // over the end, up to it, from it on
        expect_runs(&changed_at([end - 1, end]), &[[at - 1, 2]]);
        expect_runs(&changed_at(end - 5..end + 9), &[[at - 5, 14]]);
        expect_runs(&changed_at(end - 5..end), &[[at - 5, 5]]);
        expect_runs(&changed_at(end..end + 5), &[[at, 5]]);
        // one of the two bytes at the end between two runs is not changed
        expect_runs(&changed_at([end - 2, end]), &[[at - 2, 1], [at, 1]]);
        expect_runs(&changed_at([end - 1, end + 1]), &[[at - 1, 1], [at + 1, 1]]);
    }
    // over several ends
    expect_runs(&changed_at(500..3500), &[[500, 3000]]);
    expect_runs(&changed_at(507..1017), &[[507, 510]]);
    // whole blocks
    expect_runs(&changed_at(508..1016), &[[508, 508]]);
    expect_runs(&changed_at(16256..16384), &[[16256, 128]]);
    expect_runs(&changed_at(16255..16384), &[[16255, 129]]);
    // a block without a difference between two others
    expect_runs(&changed_at((0..508).chain(1016..1020)), &[[0, 508], [1016, 4]]);
    // a run at each of the ends
    let every_end = (1..=32).map(|n| 508 * n);
    let runs: Vec<[u32; 2]> = every_end.clone().map(|end| [end as u32 - 1, 2]).collect();
    expect_runs(&changed_at(every_end.flat_map(|end| [end - 1, end])), &runs);
}

/// Runs of a length, a period apart.
fn expect_many(start: usize, length: usize, period: usize, count: usize) {
    let starts = (0..count).map(|n| start + n * period);
    let addresses = starts.clone().flat_map(|start| start..start + length);
    let other = changed_at(addresses);
    let runs: Vec<[u32; 2]> = starts.map(|start| [start as u32, length as u32]).collect();
    let mut listed = runs.clone();
    listed.resize(256, [0, 0]);
    assert_eq!(
        compare(&sample_image(), &other),
        (accepted(0, count as u32), listed)
    );
}

#[test]
fn more_runs_than_are_listed() {
    for count in [254, 255, 256, 257, 258, 1000] {
        expect_many(0, 1, 2, count);
        expect_many(1, 3, 5, count);
        expect_many(16384 - 12 * count, 11, 12, count);
    }
    expect_many(0, 1, 2, 8192);
    expect_many(1, 1, 2, 8192);
    expect_many(2, 2, 4, 4095);
    // the last of the listed runs is long, or the one after it
    let alternate = (0..255).map(|n| 2 * n);
    for start in [510, 512] {
        let some = alternate.clone().chain((start == 512).then_some(510));
        let (answer, listed) = compare(&changed_at(some.chain(start..9000)), &sample_image());
        assert_eq!(answer, accepted(0, if start == 510 { 256 } else { 257 }));
        assert_eq!(listed[254], [508, 1]);
        assert_eq!(listed[255], if start == 510 { [510, 8490] } else { [510, 1] });
    }
}

#[test]
fn old_numbers_do_not_stay() {
    let image = sample_image();
    let many = changed_at((0..8192).map(|n| 2 * n));
    let few = changed_at([70, 71, 900]);
    let mut list = [7; 512];
    assert_eq!(compare_images(&image, &many, &mut list), accepted(0, 8192));
    assert_eq!(list[510..], [510, 1]);
    assert_eq!(compare_images(&image, &few, &mut list), accepted(0, 2));
    assert_eq!(list[..4], [70, 2, 900, 1]);
    assert_eq!(list[4..], [0; 508]);
    // The lengths do not grow from one call to the next.
    assert_eq!(compare_images(&image, &few, &mut list), accepted(0, 2));
    assert_eq!(list[..4], [70, 2, 900, 1]);
    assert_eq!(compare_images(&image, &image, &mut list), accepted(0, 0));
    assert_eq!(list, [0; 512]);
    compare_images(&image, &many, &mut list);
    assert_eq!(compare_images(&image[1..], &many, &mut list), refused(5, 1, 0));
    assert_eq!(list, [0; 512]);
}

/// Every maximal stretch of differing bytes, found by trying each start and end.
fn stretches(first: &[u8], second: &[u8]) -> Vec<[u32; 2]> {
    let size = first.len();
    let differs = |i: usize| first[i] != second[i];
    let mut differing_below = vec![0];
    for i in 0..size {
        differing_below.push(differing_below[i] + usize::from(differs(i)));
    }
    let mut found = Vec::new();
    for start in 0..size {
        if !differs(start) || start > 0 && differs(start - 1) {
            continue;
        }
        for end in start + 1..=size {
            let all_differ = differing_below[end] - differing_below[start] == end - start;
            let ends_there = end == size || !differs(end);
            if all_differ && ends_there {
                found.push([start as u32, (end - start) as u32]);
            }
        }
    }
    found
}

#[test]
fn stretches_of_short_memories() {
    assert_eq!(stretches(b"abcdef", b"abcdef"), [[0; 2]; 0]);
    assert_eq!(stretches(b"abcdef", b"xbxxex"), [[0, 1], [2, 2], [5, 1]]);
    assert_eq!(stretches(b"abcdef", b"uvwxyz"), [[0, 6]]);
}

#[test]
fn random_memories() {
    let mut random = Random(8);
    for round in 0..24 {
        let (_, memory) = sample();
        let mut other = memory.clone();
        // From nearly all bytes changed to few, in single bytes or in bursts.
        let every = [1, 2, 3, 5, 20, 60, 64, 65, 70, 500, 3000, 20000][round / 2];
        let burst = if round % 2 == 0 { 1 } else { 30 };
        let mut address = 0;
        while address < MEMORY_SIZE {
            if random.below(every) == 0 {
                let end = (address + 1 + random.below(burst) as usize).min(MEMORY_SIZE);
                for byte in &mut other[address..end] {
                    // may leave the byte as it is
                    *byte = random.word() as u8;
                }
                address = end;
            }
            address += 1;
        }
        let runs = stretches(&memory, &other);
        let (answer, listed) = compare(&image_of(&memory), &image_of(&other));
        assert_eq!(answer, accepted(0, runs.len() as u32));
        let mut expected = runs.clone();
        expected.resize(256, [0, 0]);
        assert_eq!(listed, expected);

        // What the paper says of the runs that are listed.
        let shown = &listed[..runs.len().min(256)];
        assert!(shown.windows(2).all(|two| two[0][0] + two[0][1] < two[1][0]));
        let mut covered = vec![false; MEMORY_SIZE];
        for [start, length] in shown {
            covered[*start as usize..][..*length as usize].fill(true);
        }
        let upto = match runs.get(256) {
            Some(&[start, _]) => start as usize,
            None => MEMORY_SIZE,
        };
        for address in 0..upto {
            assert_eq!(covered[address], memory[address] != other[address]);
        }
        assert!(!covered[upto..].contains(&true));
    }
}

// ---- fields ----

/// Another right number for each field from 2 to 14 of the sample, each of which
/// may be changed without the others.
const OTHERS: [u16; 13] = [
    0x8300, 0x0000, 0xA5C2, 0, 0x1237, 0xF01F, 0x8000, 0, 16383, 300, 0, 0, 16384,
];

#[test]
fn fields_by_their_weights() {
    let image = sample_image();
    for mask in 0..1 << 13 {
        let mut other = image.clone();
        for (n, &number) in OTHERS.iter().enumerate() {
            if mask >> n & 1 == 1 {
                put(&mut other, 2 + 2 * (2 + n), number);
            }
        }
        mend(&mut other, 0);
        let expected = (accepted(mask << 2, 0), vec![[0, 0]; 256]);
        assert_eq!(compare(&image, &other), expected);
        assert_eq!(compare(&other, &image), expected);
        assert_eq!(compare(&other, &other).0, accepted(0, 0));
    }
}

#[test]
fn fields_and_runs() {
    let mut other = changed_at([3, 600, 601]);
    put(&mut other, 2 + 2 * 4, 0xFFFF);
    mend(&mut other, 0);
    let (answer, listed) = compare(&sample_image(), &other);
    assert_eq!(answer, accepted(1 << 4, 2));
    assert_eq!(listed[..3], [[3, 1], [600, 2], [0, 0]]);
}

// ---- editions ----

/// The sample's image with this read-only address.
fn with_read_only(address: u16) -> Vec<u8> {
    let mut image = sample_image();
    put(&mut image, 2 + 2 * 14, address);
    mend(&mut image, 0);
    image
}

#[test]
fn editions() {
    let first = first_edition();
    assert_eq!(compare(&first, &first).0, accepted(0, 0));
    // without a read-only part the edition alone differs
    let none = with_read_only(16384);
    assert_eq!(compare(&first, &none).0, accepted(1 << 1, 0));
    assert_eq!(compare(&none, &first).0, accepted(1 << 1, 0));
    // else the address too; 0 is what the word of the first edition is
    for address in [0, 2, 0x2A5C, 16382] {
        let second = with_read_only(address);
        assert_eq!(compare(&first, &second).0, accepted(1 << 1 | 1 << 14, 0));
        assert_eq!(compare(&second, &first).0, accepted(1 << 1 | 1 << 14, 0));
        assert_eq!(compare(&second, &none).0, accepted(1 << 14, 0));
    }
    // other fields and the memory, between the editions
    let mut other = changed_at([16383]);
    put(&mut other, 2 + 2 * 13, 0);
    mend(&mut other, 0);
    let (answer, listed) = compare(&first, &other);
    assert_eq!(answer, accepted(1 << 1 | 1 << 13 | 1 << 14, 1));
    assert_eq!(listed[..2], [[16383, 1], [0, 0]]);
    // though the two are read as the same
    let mut memory = vec![0; MEMORY_SIZE];
    assert_eq!(
        read_image(&first, &mut memory).state,
        read_image(&none, &mut memory).state
    );
}

// ---- refusals ----

/// The image with another word in a block, the check word made right.
fn with_word(image: &[u8], block: usize, n: usize, value: u16) -> Vec<u8> {
    let mut image = image.to_vec();
    put(&mut image, 512 * block + 2 * n, value);
    mend(&mut image, block);
    image
}

fn with_bad_check(image: &[u8], block: usize) -> Vec<u8> {
    let mut image = image.to_vec();
    image[512 * block + 300] ^= 4;
    image
}

/// Images that are refused, with the number and the block.
fn bad_images(good: &[u8]) -> Vec<(Vec<u8>, u16, u16)> {
    let mut long = good.to_vec();
    long.push(0);
    let mut bad = vec![
        (vec![], 5, 0),
        (good[..1].to_vec(), 5, 0),
        (good[..IMAGE_SIZE - 1].to_vec(), 5, 0),
        (good[..IMAGE_SIZE - 512].to_vec(), 5, 0),
        (long, 5, 0),
    ];
    for block in [0, 1, 17, 33] {
        bad.push((with_bad_check(good, block), 6, block as u16));
        bad.push((with_word(good, block, 0, 34), 7, block as u16));
    }
    for (n, value, number) in [
        (1, 0x9900, 8),
        (2, 0, 8),
        (2, 3, 8),
        (3, 0x0001, 9),
        (6, 3, 9),
        (13, 64, 9),
        (15, 16386, 9),
        (16, 1, 9),
        (254, 0x8000, 9),
    ] {
        bad.push((with_word(good, 0, n, value), number, 0));
    }
    bad.push((with_word(good, 33, 65, 1), 9, 0));
    bad
}

#[test]
fn refusals_of_either_image() {
    let good = sample_image();
    // an image that differs in everything
    let mut far: Vec<u8> = changed_at(0..16384);
    put(&mut far, 2 + 2 * 2, 0x4444);
    mend(&mut far, 0);
    for good in [good, far, first_edition()] {
        for (bad, number, block) in bad_images(&sample_image()) {
            expect_refused(&bad, &good, number, 1, block);
            expect_refused(&good, &bad, number, 2, block);
            expect_refused(&bad, &bad, number, 1, block);
        }
    }
}

#[test]
fn the_first_image_comes_first() {
    let all = bad_images(&sample_image());
    let mut lower_second = 0;
    for (first, number, block) in &all {
        for (second, other, other_block) in &all {
            expect_refused(first, second, *number, 1, *block);
            if (other, other_block) < (number, block) {
                lower_second += 1;
            }
        }
    }
    assert!(lower_second > 100);
}

#[test]
fn the_order_within_an_image() {
    let good = sample_image();
    let both = |bad: &[u8], number, block| {
        expect_refused(bad, &good, number, 1, block);
        expect_refused(&good, bad, number, 2, block);
    };
    // 9, then 8 before it, then 7 and 6 in falling blocks, then 5
    let mut bad = with_word(&good, 33, 65, 1);
    both(&bad, 9, 0);
    bad = with_word(&bad, 0, 6, 3);
    both(&bad, 9, 0);
    bad = with_word(&bad, 0, 2, 3);
    both(&bad, 8, 0);
    for block in (0..34).rev() {
        bad = with_word(&bad, block, 0, 0x9901);
        both(&bad, 7, block as u16);
        bad = with_bad_check(&bad, block);
        both(&bad, 6, block as u16);
    }
    bad.push(0);
    both(&bad, 5, 0);
}

#[test]
fn images_are_judged_as_in_reading() {
    let mut random = Random(9);
    let good = [sample_image(), first_edition()];
    let mut accepted = 0;
    let mut refused = [0; 10];
    for round in 0..4000 {
        let mut image = good[round % 2].clone();
        for _ in 0..1 + random.below(2) {
            let block = [0, 0, 1 + random.below(32) as usize, 33][random.below(4) as usize];
            let words = [17, 255][random.below(2) as usize];
            let n = random.below(words) as usize;
            let value = word(&image, 512 * block + 2 * n) ^ 1 << random.below(16);
            put(&mut image, 512 * block + 2 * n, value);
            if random.below(8) > 0 {
                mend(&mut image, block);
            }
        }
        let mut memory = vec![0; MEMORY_SIZE];
        let read = read_image(&image, &mut memory);
        refused[usize::from(read.number)] += 1;
        if read.number == 0 {
            accepted += 1;
            let answer = compare(&image, &good[round % 2]).0;
            assert_eq!((answer.number, answer.image, answer.block), (0, 0, 0));
            assert_eq!(compare(&good[round % 2], &image).0, answer);
        } else {
            expect_refused(&image, &good[0], read.number, 1, read.block);
            expect_refused(&good[1], &image, read.number, 2, read.block);
        }
    }
    assert!(accepted > 100, "{accepted}");
    assert!(refused[6..].iter().all(|&count| count > 50), "{refused:?}");
}
