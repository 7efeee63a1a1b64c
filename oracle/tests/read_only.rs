//! The read-only part of the memory: which stores are dropped, what a dropped
//! store still does, and what stays as it is.
mod common;
use common::*;
use oracle::{power_up, run, Answer, Psi, State, Step, MEMORY_SIZE};

/// A bench with this first read-only address, and these words at the PC.
fn bench(read_only: u32, words: &[u16]) -> Bench {
    let mut b = Bench::with(words);
    b.state.read_only = read_only;
    b
}

/// One quiet step; the read-only address stays.
fn step(b: &mut Bench) {
    let read_only = b.state.read_only;
    b.step();
    assert_eq!(b.state.read_only, read_only);
}

/// The same of a step with this record, and what it was.
fn kind(b: &mut Bench, record: u32) -> Step {
    let read_only = b.state.read_only;
    let kind = b.kind(record);
    assert_eq!(b.state.read_only, read_only);
    kind
}

// ---- words and bytes ----

#[test]
fn a_word_on_both_sides() {
    // MOV R1,@address; where the word is stored, if it is.
    for (address, place) in [
        (0x0400, Some(0x0400)),
        (0x1FFD, Some(0x1FFC)),
        (0x1FFE, Some(0x1FFE)),
        (0x1FFF, Some(0x1FFE)),
        (0x2000, None),
        (0x2001, None),
        (0x2002, None),
        (0x3FFE, None),
        (0x3FFF, None),
        // the same places, by higher addresses
        (0x4000, Some(0x0000)),
        (0x5FFF, Some(0x1FFE)),
        (0x6000, None),
        (0x7FFF, None),
        (0x8001, Some(0x0000)),
        (0x9FFE, Some(0x1FFE)),
        (0xA001, None),
        (0xC000, Some(0x0000)),
        (0xE000, None),
        (0xFFFF, None),
    ] {
        let mut b = bench(0x2000, &[0xC801, address]);
        b.set_r(1, 0x9234);
        let mut expected = b.memory.clone();
        if let Some(place) = place {
            expected[place..place + 2].copy_from_slice(&[0x92, 0x34]);
        }
        step(&mut b);
        assert!(b.memory == expected, "{address:04X}");
        // The rest of the instruction is the same.
        assert_eq!((b.state.pc, b.state.st), (PC + 4, LGT));
    }
}

#[test]
fn a_byte_on_both_sides() {
    // MOVB R1,@address
    for (address, place) in [
        (0x0400, Some(0x0400)),
        (0x1FFE, Some(0x1FFE)),
        (0x1FFF, Some(0x1FFF)),
        (0x2000, None),
        (0x2001, None),
        (0x3FFF, None),
        (0x4001, Some(0x0001)),
        (0x5FFF, Some(0x1FFF)),
        (0x6000, None),
        (0x9FFF, Some(0x1FFF)),
        (0xA000, None),
        (0xFFFF, None),
    ] {
        let mut b = bench(0x2000, &[0xD801, address]);
        b.set_r(1, 0x9234);
        let mut expected = b.memory.clone();
        if let Some(place) = place {
            expected[place] = 0x92;
        }
        step(&mut b);
        assert!(b.memory == expected, "{address:04X}");
        // 92h has three ones.
        assert_eq!((b.state.pc, b.state.st), (PC + 4, LGT | OP));
    }
}

#[test]
fn the_ends_of_the_memory() {
    // SETO @address: whether the word is stored, for some read-only addresses.
    let cases: [(u32, &[u16], &[u16]); 4] = [
        (0, &[], &[0x0000, 0x0002, 0x2000, 0x3FFC, 0x3FFE, 0x4000]),
        (2, &[0x0000, 0x4000, 0xC001], &[0x0002, 0x2000, 0x3FFE, 0x4002]),
        (
            16382,
            &[0x0000, 0x2000, 0x3FFC, 0x7FFD],
            &[0x3FFE, 0x3FFF, 0xFFFE],
        ),
        (16384, &[0x0000, 0x2000, 0x3FFC, 0x3FFE, 0xFFFF], &[]),
    ];
    for (read_only, stored, dropped) in cases {
        for (addresses, value) in [(stored, 0xFFFF), (dropped, 0)] {
            for &address in addresses {
                let mut b = bench(read_only, &[0x0720, address]);
                step(&mut b);
                assert_eq!(b.word(address), value, "{read_only} {address:04X}");
                assert_eq!(b.state.pc, PC + 4);
            }
        }
    }
    // Bytes: MOVB R1,@address
    for (read_only, address, value) in [
        (0, 0x0000, 0),
        (2, 0x0001, 0x55),
        (2, 0x0002, 0),
        (16382, 0x3FFD, 0x55),
        (16382, 0x3FFE, 0),
        (16382, 0x3FFF, 0),
        (16384, 0x3FFF, 0x55),
    ] {
        let mut b = bench(read_only, &[0xD801, address]);
        b.set_r(1, 0x5500);
        step(&mut b);
        assert_eq!(b.byte(address), value, "{read_only} {address:04X}");
    }
}

#[test]
fn every_form_of_store() {
    // Registers at 2000h on, all of them read-only, R1 negative; the operand is R1.
    let words = [
        [0x0201, 0x1234], // LI
        [0x0221, 0x1234], // AI
        [0x0241, 0x1234], // ANDI
        [0x0261, 0x1234], // ORI
        [0x02A1, 0],      // STWP
        [0x02C1, 0],      // STST
        [0x04C1, 0],      // CLR
        [0x0501, 0],      // NEG
        [0x0541, 0],      // INV
        [0x0581, 0],      // INC
        [0x05C1, 0],      // INCT
        [0x0601, 0],      // DEC
        [0x0641, 0],      // DECT
        [0x06A0, 0x0400], // BL
        [0x06C1, 0],      // SWPB
        [0x0701, 0],      // SETO
        [0x0741, 0],      // ABS
        [0x0811, 0],      // SRA
        [0x0911, 0],      // SRL
        [0x0A11, 0],      // SLA
        [0x0B11, 0],      // SRC
        [0x2842, 0],      // XOR
        [0x3442, 0],      // STCR, a byte
        [0x3402, 0],      // STCR, a word
        [0x3842, 0],      // MPY
        [0x3C42, 0],      // DIV
        [0x4042, 0],      // SZC
        [0x5042, 0],      // SZCB
        [0x6042, 0],      // S
        [0x7042, 0],      // SB
        [0xA042, 0],      // A
        [0xB042, 0],      // AB
        [0xC042, 0],      // MOV
        [0xD042, 0],      // MOVB
        [0xE042, 0],      // SOC
        [0xF042, 0],      // SOCB
    ];
    for words in words {
        let start = |read_only| {
            let mut b = bench(read_only, &words);
            b.state.wp = 0x2000;
            for n in 0..16 {
                b.set_r(n, 0x8761 + 0x0135 * n);
            }
            b
        };
        let before = start(0x2000);
        let mut dropped = start(0x2000);
        step(&mut dropped);
        assert!(dropped.memory == before.memory, "{words:04X?}");
        let mut stored = start(0x2020);
        step(&mut stored);
        assert!(stored.memory != before.memory, "{words:04X?}");
        // Nothing but the memory tells them apart.
        stored.state.read_only = 0x2000;
        assert_eq!(dropped.state, stored.state, "{words:04X?}");
    }
}

#[test]
fn no_step_changes_a_read_only_byte() {
    let mut random = Random(77);
    for word in 0..=0xFFFFu16 {
        let read_only = match word % 4 {
            0 => 0,
            1 => 0x0300 + 2 * random.below(16) as u32,
            _ => 2 * random.below(8193) as u32,
        };
        let mut b = bench(read_only, &[word, random.word(), random.word()]);
        for n in 0..16 {
            b.set_r(n, random.word());
        }
        for i in 0..20 {
            b.put(4 * i, random.word());
        }
        let before = b.memory.clone();
        b.state.psi.control_and_masks = if random.below(4) == 0 { 0xFFFE } else { 0 };
        b.state.st = 15;
        let record = random.record();
        kind(&mut b, record);
        let from = read_only as usize;
        assert!(b.memory[from..] == before[from..], "{word:04X}");
    }
}

// ---- increments ----

#[test]
fn an_increment_is_dropped() {
    // MOV *R1+,R2: R1 is at 0302h, R2 at 0304h.
    for (read_only, r1, r2) in [
        (0x0300, 0x0200, 0x1111),
        (0x0302, 0x0200, 0x1111),
        (0x0304, 0x0202, 0x1111),
        (0x0306, 0x0202, 0x5678),
    ] {
        let mut b = bench(read_only, &[0xC0B1]);
        b.set_r(1, 0x0200);
        b.set_r(2, 0x1111);
        b.put(0x0200, 0x5678);
        step(&mut b);
        assert_eq!((b.r(1), b.r(2)), (r1, r2));
        // What was read is judged all the same.
        assert_eq!((b.state.pc, b.state.st), (PC + 2, LGT | AGT));
    }
    // MOVB *R1+,*R2+: R1 counts by one; R2 keeps its value, its byte is stored.
    let mut b = bench(0x0304, &[0xDCB1]);
    b.set_r(1, 0x0200);
    b.set_r(2, 0x0211);
    b.put(0x0200, 0x5678);
    step(&mut b);
    assert_eq!((b.r(1), b.r(2), b.word(0x0210)), (0x0201, 0x0211, 0x0056));
}

#[test]
fn a_register_that_does_not_count() {
    // A *R1+,*R1+ adds a word to the next one, or to itself where R1 stays.
    for (read_only, words) in [
        (16384, [0x0021, 0x0321, 0x0500]),
        (0x3000, [0x0042, 0x0300, 0x0500]),
    ] {
        let mut b = bench(read_only, &[0xAC71]);
        b.state.wp = 0x3000;
        b.set_r(1, 0x0400);
        for (i, word) in [0x0021, 0x0300, 0x0500].into_iter().enumerate() {
            b.put(0x0400 + 2 * i as u16, word);
        }
        step(&mut b);
        assert_eq!([b.word(0x0400), b.word(0x0402), b.word(0x0404)], words);
        assert_eq!(b.r(1), if read_only == 16384 { 0x0404 } else { 0x0400 });
    }
    // LDCR *R1+ of 8 and of 9 bits, B *R1+, X *R1+, BLWP *R1+, C *R1+,*R1+.
    for word in [0x3231, 0x3271, 0x0471, 0x04B1, 0x0431, 0x8C71] {
        let mut b = bench(0x0302, &[word]);
        b.set_r(1, 0x0200);
        b.set_r(12, 0x0800);
        step(&mut b);
        assert_eq!(b.word(WP + 2), 0x0200, "{word:04X}");
    }
}

// ---- pairs ----

#[test]
fn a_product_across_the_boundary() {
    // MPY R1,R2: 5678h times 1234h is 06260060h; R2 is at 0304h, R3 at 0306h.
    for (read_only, r2, r3) in [
        (0x0304, 0x1234, 0x7777),
        (0x0306, 0x0626, 0x7777),
        (0x0308, 0x0626, 0x0060),
    ] {
        let mut b = bench(read_only, &[0x3881]);
        b.set_r(1, 0x5678);
        b.set_r(2, 0x1234);
        b.set_r(3, 0x7777);
        step(&mut b);
        assert_eq!((b.r(2), b.r(3)), (r2, r3));
    }
    // R2 is the memory's last word, R3 its first: the other one is lost.
    let mut b = bench(0x3FFE, &[0x3881]);
    b.state.wp = 0x3FFA;
    b.set_r(1, 0x5678);
    b.set_r(2, 0x1234);
    step(&mut b);
    assert_eq!((b.word(0x3FFE), b.word(0x0000)), (0x1234, 0x0060));
}

#[test]
fn a_quotient_across_the_boundary() {
    // DIV R1,R2: 00010007h by 4 is 4001h, and 3 is left.
    for (read_only, r2, r3) in [(0x0304, 1, 7), (0x0306, 0x4001, 7), (0x0308, 0x4001, 3)] {
        let mut b = bench(read_only, &[0x3C81]);
        b.set_r(1, 4);
        b.set_r(2, 1);
        b.set_r(3, 7);
        b.state.st = OV;
        step(&mut b);
        assert_eq!((b.r(2), b.r(3), b.state.st), (r2, r3, 0));
    }
    let mut b = bench(0x3FFE, &[0x3C81]);
    b.state.wp = 0xFFFA;
    b.set_r(1, 4);
    b.set_r(2, 1);
    b.set_r(3, 7);
    step(&mut b);
    assert_eq!((b.word(0x3FFE), b.word(0x0000)), (1, 3));
}

// ---- entries ----

/// An entry: its record, the words at the PC, its vector, the PC it saves, the
/// ST after it, and what its step is. ST is A00Fh before it.
struct Entry {
    record: u32,
    words: [u16; 2],
    vector: u16,
    saved_pc: u16,
    st: u16,
    kind: Step,
}

const ST: u16 = 0xA00F;

fn entries() -> Vec<Entry> {
    let by_pin = |n, vector, st, kind| Entry {
        record: low(&[n]),
        words: [0x1000, 0x1000],
        vector,
        saved_pc: PC,
        st,
        kind,
    };
    let by_word = |words, vector, saved_pc, st| Entry {
        record: QUIET,
        words,
        vector,
        saved_pc,
        st,
        kind: Step::Instruction,
    };
    vec![
        by_pin(1, 0x0000, 0, Step::Reset),
        by_pin(8, 0x0000, 0, Step::Reset),
        by_pin(2, 0x3FFC, 0xA000, Step::Load),
        by_pin(3, 0x0004, 0xA000, Step::Level(1)),
        by_pin(4, 0x0008, 0xA001, Step::Level(2)),
        by_pin(5, 0x000C, 0xA002, Step::Level(3)),
        by_pin(6, 0x0010, 0xA003, Step::Level(4)),
        // BLWP @>1000 and BLWP R5, XOP R5,3
        by_word([0x0420, 0x1000], 0x1000, PC + 4, ST),
        by_word([0x0405, 0x1000], WP + 10, PC + 2, ST),
        by_word([0x2CC5, 0x1000], 0x004C, PC + 2, ST | X),
    ]
}

/// The bench before an entry to a workspace at `wp`, whose save words hold 1111h,
/// 2222h and 3333h. The new PC is 0600h.
fn before(entry: &Entry, wp: u16, read_only: u32) -> Bench {
    let mut b = bench(read_only, &entry.words);
    b.state.st = ST;
    b.state.psi.control_and_masks = 0xFFFE;
    for (n, word) in [(13, 0x1111), (14, 0x2222), (15, 0x3333)] {
        b.put(wp.wrapping_add(2 * n), word);
    }
    b.put(entry.vector, wp | 1);
    b.put(entry.vector + 2, 0x0601);
    b
}

/// Does an entry to a workspace at `wp`; `kept` tells which of R13, R14 and R15
/// keep what they had.
fn check(entry: &Entry, wp: u16, read_only: u32, kept: [bool; 3]) {
    let mut b = before(entry, wp, read_only);
    let mut expected = before(entry, wp, read_only);
    let saved = [WP, entry.saved_pc, ST];
    for i in 0..3 {
        if !kept[i] {
            expected.put(wp.wrapping_add(26 + 2 * i as u16), saved[i]);
        }
    }
    if entry.words[0] == 0x2CC5 && u32::from((wp.wrapping_add(22)) % 16384) < read_only {
        expected.put(wp.wrapping_add(22), WP + 10); // R11: where R5 is
    }
    assert_eq!(kind(&mut b, entry.record), entry.kind);
    assert!(
        b.memory == expected.memory,
        "{:04X} {wp:04X} {read_only:04X}",
        entry.vector
    );
    let expected = State {
        wp,
        pc: 0x0600,
        st: entry.st,
        flags: 2,
        ..expected.state
    };
    assert_eq!(b.state, expected);
}

#[test]
fn save_words_and_the_boundary() {
    for entry in entries() {
        // The save words are at 201Ah, 201Ch, 201Eh.
        for wp in [0x2000, 0x6000, 0xE000] {
            check(&entry, wp, 16384, [false, false, false]);
            check(&entry, wp, 0x2022, [false, false, false]);
            check(&entry, wp, 0x2020, [false, false, false]);
            check(&entry, wp, 0x201E, [false, false, true]);
            check(&entry, wp, 0x201C, [false, true, true]);
            check(&entry, wp, 0x201A, [true, true, true]);
            check(&entry, wp, 0x2018, [true, true, true]);
            check(&entry, wp, 0x2016, [true, true, true]);
            check(&entry, wp, 0x2000, [true, true, true]);
            check(&entry, wp, 2, [true, true, true]);
            check(&entry, wp, 0, [true, true, true]);
        }
    }
}

#[test]
fn save_words_around_the_end() {
    for entry in entries() {
        // The vector is not to lie among the save words.
        let low = entry.vector < 4;
        let high = entry.vector == 0x3FFC;
        if !low && !high {
            // R13 is the last word of memory, R14 and R15 are the first two.
            for wp in [0x3FE4, 0xFFE4] {
                check(&entry, wp, 16384, [false, false, false]);
                check(&entry, wp, 16382, [true, false, false]);
                check(&entry, wp, 4, [true, false, false]);
                check(&entry, wp, 2, [true, false, true]);
                check(&entry, wp, 0, [true, true, true]);
            }
        }
        if !low && !high {
            // R13 and R14 are the last two words, R15 is the first.
            check(&entry, 0x3FE2, 16384, [false, false, false]);
            check(&entry, 0x3FE2, 16382, [false, true, false]);
            check(&entry, 0x3FE2, 16380, [true, true, false]);
            check(&entry, 0x3FE2, 2, [true, true, false]);
            check(&entry, 0x3FE2, 0, [true, true, true]);
        }
        if !high {
            // The last three words.
            check(&entry, 0x3FE0, 16384, [false, false, false]);
            check(&entry, 0x3FE0, 16382, [false, false, true]);
            check(&entry, 0x3FE0, 16380, [false, true, true]);
            check(&entry, 0x3FE0, 16378, [true, true, true]);
        }
    }
}

#[test]
fn save_words_over_the_own_vector() {
    // Reset with R14 and R15 at 0000h and 0002h, where its vector is: both words
    // are read before any is stored.
    for (read_only, last, vector) in [
        (16384, WP, [PC, ST]),
        (16382, 0x7777, [PC, ST]),
        (2, 0x7777, [PC, 0x0600]),
        (0, 0x7777, [0x3FE4, 0x0600]),
    ] {
        let mut b = bench(read_only, &[0x1000]);
        b.put(0x3FFE, 0x7777);
        b.put(0x0000, 0x3FE4);
        b.put(0x0002, 0x0600);
        b.state.st = ST;
        b.state.psi.control_and_masks = 0xFFFE;
        assert_eq!(kind(&mut b, low(&[1])), Step::Reset);
        assert_eq!((b.state.wp, b.state.pc, b.state.st), (0x3FE4, 0x0600, 0));
        assert_eq!((b.word(0x3FFE), [b.word(0), b.word(2)]), (last, vector));
    }
}

#[test]
fn the_link_of_an_xop() {
    // XOP R5,3 to 2000h: R11 is at 2016h, the save words are above it.
    for (read_only, r11, r13) in [
        (0x2016, 0x4444, 0x5555),
        (0x2018, WP + 10, 0x5555),
        (0x201A, WP + 10, 0x5555),
        (0x201C, WP + 10, WP),
    ] {
        let mut b = bench(read_only, &[0x2CC5]);
        b.put(0x004C, 0x2000);
        b.put(0x004E, 0x0600);
        b.put(0x2016, 0x4444);
        b.put(0x201A, 0x5555);
        step(&mut b);
        assert_eq!((b.word(0x2016), b.word(0x201A)), (r11, r13));
        assert_eq!((b.state.wp, b.state.pc, b.state.st), (0x2000, 0x0600, X));
    }
    // R11 is the last word and read-only, R13 comes round to 0002h: the other way round.
    let mut b = bench(0x3FFE, &[0x2CC5]);
    b.put(0x004C, 0x3FE8);
    b.put(0x004E, 0x0600);
    b.put(0x3FFE, 0x4444);
    step(&mut b);
    assert_eq!(
        (b.word(0x3FFE), b.word(0x0002), b.word(0x0004)),
        (0x4444, WP, PC + 2)
    );
    // BL's link.
    for (read_only, r11) in [(0x0316, 0x4444), (0x0318, PC + 4)] {
        let mut b = bench(read_only, &[0x06A0, 0x0600]);
        b.set_r(11, 0x4444);
        step(&mut b);
        assert_eq!((b.r(11), b.state.pc), (r11, 0x0600));
    }
}

#[test]
fn a_return_takes_what_is_there() {
    // BLWP @>1000 to 2000h, RTWP at 0600h; the save words were dropped.
    let mut b = bench(0x201A, &[0x0420, 0x1000]);
    b.put(0x1000, 0x2000);
    b.put(0x1002, 0x0600);
    b.put(0x0600, 0x0380);
    for (address, word) in [(0x201A, 0x2801), (0x201C, 0x0703), (0x201E, 0xC00F)] {
        b.put(address, word);
    }
    step(&mut b);
    assert_eq!((b.state.wp, b.state.pc), (0x2000, 0x0600));
    step(&mut b);
    assert_eq!((b.state.wp, b.state.pc, b.state.st), (0x2800, 0x0702, 0xC00F));
    // R15 alone was dropped: the way back is right, ST is not.
    let mut b = bench(0x201E, &[0x0420, 0x1000]);
    b.put(0x1000, 0x2000);
    b.put(0x1002, 0x0600);
    b.put(0x0600, 0x0380);
    b.put(0x201E, 0xC00F);
    step(&mut b);
    step(&mut b);
    assert_eq!((b.state.wp, b.state.pc, b.state.st), (WP, PC + 4, 0xC00F));
}

#[test]
fn power_up_stores_everywhere() {
    let mut memory = vec![0xAA; MEMORY_SIZE];
    memory[..4].copy_from_slice(&[0x3F, 0xE0, 0x06, 0x00]);
    let answer = power_up(&mut memory);
    assert_eq!((answer.number, answer.state.read_only), (0, 16384));
    assert_eq!(memory[16378..], [0; 6]);
    assert_eq!(State::BLANK.read_only, 16384);
    assert_eq!(power_up(&mut [0; 5]).state.read_only, 16384);
}

// ---- what stays as it is ----

#[test]
fn reading_is_as_before() {
    // All is read-only: the program, its registers, an operand, and a vector.
    let mut b = bench(0, &[0xA060, 0x2000, 0x0281, 0x0005, 0x1D00, 0x0420, 0x1000]);
    b.set_r(1, 0x4000);
    b.put(0x2000, 0x4001);
    b.put(0x1000, 0x2800);
    b.put(0x1002, 0x0600);
    let memory = b.memory.clone();
    step(&mut b); // A: 8001h is not stored
    assert_eq!((b.state.pc, b.state.st), (PC + 4, LGT | OV));
    step(&mut b); // CI R1,5: R1 is still 4000h
    assert_eq!((b.state.pc, b.state.st), (PC + 8, LGT | AGT | OV));
    step(&mut b); // SBO 0
    assert_eq!((b.state.pc, b.state.psi.control_and_masks), (PC + 10, 1));
    step(&mut b); // BLWP
    assert_eq!((b.state.wp, b.state.pc, b.state.flags), (0x2800, 0x0600, 2));
    assert_eq!(b.memory, memory);
}

#[test]
fn no_step_and_no_refusal_moves_it() {
    for read_only in [0, 2, 0x0300, 16382, 16384] {
        // IDLE, then idle steps, then a level, then a reset.
        let mut b = bench(read_only, &[0x0340]);
        b.state.st = 15;
        b.state.psi.control_and_masks = 0xFFFE;
        for record in [QUIET, QUIET, low(&[4]), low(&[1])] {
            kind(&mut b, record);
        }
        let state = b.state;
        let none = run(&mut b.memory, state, &[], 0, 1);
        assert_eq!(none, Answer::accepted(state));
        for (answer, number) in [
            (run(&mut b.memory[..16383], state, &[QUIET], 1, 1), 1),
            (run(&mut b.memory, state, &[QUIET], 2, 1), 3),
        ] {
            assert_eq!(answer, Answer::refused(number, state));
        }
    }
}

#[test]
fn wrong_read_only_addresses() {
    let good = Bench::new().state;
    let wrong = [1, 16383, 16385, 16386, 65535, 65536, 65536 + 2, 65536 + 16384];
    for read_only in wrong.into_iter().chain([0xFFFF_0000, 4_294_967_295]) {
        let bad = State { read_only, ..good };
        assert!(!bad.is_well_formed());
        let mut memory = vec![0x11; MEMORY_SIZE];
        let two = Answer::refused(2, bad);
        // Before 3, after 1; with no step to do too.
        assert_eq!(run(&mut memory, bad, &[QUIET], 1, 1), two);
        assert_eq!(run(&mut memory, bad, &[QUIET], 2, 1), two);
        assert_eq!(run(&mut memory, bad, &[], 0, 1), two);
        assert_eq!(
            run(&mut memory[1..], bad, &[QUIET], 2, 1),
            Answer::refused(1, bad)
        );
        assert_eq!(memory, vec![0x11; MEMORY_SIZE]);
    }
    for read_only in (0..=16384).step_by(2) {
        assert!(State { read_only, ..good }.is_well_formed());
    }
}

// ---- the read register ----

/// Clock mode, with a read register that is behind the decrementer.
const CLOCK_MODE: Psi = Psi {
    control_and_masks: 1,
    load: 0,
    decrementer: 0x2345,
    read_register: 0x0F0F,
    ..Psi::BLANK
};

/// Whether a step stores nothing but refreshes the read register.
fn refreshes(mut b: Bench, record: u32) -> bool {
    let masks = b.state.psi.control_and_masks;
    b.state.psi = CLOCK_MODE;
    b.state.psi.control_and_masks |= masks;
    let memory = b.memory.clone();
    kind(&mut b, record);
    assert_eq!(b.memory, memory);
    let reading = b.state.psi.read_register;
    assert!(reading == 0x0F0F || reading == 0x2345);
    reading == 0x2345
}

#[test]
fn a_dropped_store_refreshes_the_read_register() {
    // CLR, SETO, MOV R1 and MOVB R1 to an address: the line of weight 32 counts.
    for code in [0x04E0, 0x0720, 0xC801, 0xD801] {
        for (address, seen) in [
            (0x2000, false),
            (0x201F, false),
            (0x2020, true),
            (0x203F, true),
            (0x2040, false),
            (0x3FFF, true),
            (0x7FDE, false),
            (0xFFE1, true),
        ] {
            let mut b = bench(0x2000, &[code, address]);
            b.put(address, 0x5A5A);
            assert_eq!(refreshes(b, QUIET), seen, "{code:04X} {address:04X}");
        }
    }
    // An increment: B *R8+ reads R8 and stores it, at 2020h or at 201Eh.
    for (wp, seen) in [(0x2010, true), (0x200E, false)] {
        let mut b = bench(0x2000, &[0x0478]);
        b.state.wp = wp;
        b.set_r(8, 0x0400);
        assert_eq!(refreshes(b, QUIET), seen);
    }
    // LI R8 stores without reading.
    for (wp, seen) in [(0x2010, true), (0x200E, false)] {
        let mut b = bench(0x2000, &[0x0208, 5]);
        b.state.wp = wp;
        assert_eq!(refreshes(b, QUIET), seen);
    }
}

#[test]
fn a_dropped_save_word_refreshes_the_read_register() {
    // BLWP @>1000, and level 2 with its vector at 0008h: their vectors have the
    // line low. The save words are all below 2020h, or R15 is at it.
    for (wp, seen) in [(0x2000, false), (0x2002, true), (0x2004, true), (0x2010, true)] {
        let mut b = bench(0x2000, &[0x0420, 0x1000]);
        b.put(0x1000, wp);
        assert_eq!(refreshes(b, QUIET), seen, "{wp:04X}");
        let mut b = bench(0x2000, &[0x1000]);
        b.state.st = 2;
        b.state.psi.control_and_masks = 1 << 4;
        b.put(0x0008, wp);
        assert_eq!(refreshes(b, low(&[4])), seen, "{wp:04X}");
    }
    // XOP R0,0, its vector at 0040h: R11 alone has the line high, at 203Ch, or none.
    let mut b = bench(0x2000, &[0x2C00]);
    b.put(0x0040, 0x2026); // R13 to R15 at 2040h to 2044h
    assert!(refreshes(b, QUIET));
    let mut b = bench(0x2000, &[0x2C00]);
    b.put(0x0040, 0x2040); // R11 at 2056h, R13 to R15 at 205Ah to 205Eh
    assert!(!refreshes(b, QUIET));
}
