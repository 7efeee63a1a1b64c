//! Operand addresses, increments, their order, and wrap-arounds; X; BL and the like.
mod common;
use common::*;
use oracle::State;

#[test]
fn every_mode_as_source_and_destination() {
    // MOV R1,R2
    let mut b = Bench::with(&[0xC081]);
    b.set_r(1, 0x1234);
    b.step();
    assert_eq!(b.r(2), 0x1234);
    // MOV *R1,*R2
    let mut b = Bench::with(&[0xC491]);
    b.set_r(1, 0x0400);
    b.set_r(2, 0x0502);
    b.put(0x0400, 0x1234);
    b.step();
    assert_eq!((b.word(0x0502), b.r(1), b.r(2)), (0x1234, 0x0400, 0x0502));
    // MOV @0400,@0502: source word first
    let mut b = Bench::with(&[0xC820, 0x0400, 0x0502]);
    b.set_r(0, 0x1111); // R0 does not index
    b.put(0x0400, 0x1234);
    b.step();
    assert_eq!((b.word(0x0502), b.state.pc), (0x1234, PC + 6));
    // MOV @2(R1),@FFFE(R2): the sum wraps at 65536
    let mut b = Bench::with(&[0xC8A1, 0x0002, 0xFFFE]);
    b.set_r(1, 0x0400);
    b.set_r(2, 0x0502);
    b.put(0x0402, 0x1234);
    b.step();
    assert_eq!((b.word(0x0500), b.state.pc), (0x1234, PC + 6));
    // MOV *R1+,*R2+
    let mut b = Bench::with(&[0xCCB1]);
    b.set_r(1, 0x0400);
    b.set_r(2, 0xFFFE);
    b.put(0x0400, 0x1234);
    b.step();
    assert_eq!((b.word(0x3FFE), b.r(1), b.r(2)), (0x1234, 0x0402, 0x0000));
}

#[test]
fn byte_operands() {
    // MOVB *R1+,*R2+ : increments of 1; odd and even bytes
    let mut b = Bench::with(&[0xDCB1]);
    b.set_r(1, 0x0401);
    b.set_r(2, 0x0500);
    b.put(0x0400, 0x1234);
    b.put(0x0500, 0xABCD);
    b.step();
    assert_eq!((b.word(0x0500), b.r(1), b.r(2)), (0x34CD, 0x0402, 0x0501));
    assert_eq!(b.state.st, LGT | AGT | OP);
    // A register's byte is its high byte: MOVB R1,@0501
    let mut b = Bench::with(&[0xD801, 0x0501]);
    b.set_r(1, 0x80FF);
    b.put(0x0500, 0xABCD);
    b.step();
    assert_eq!((b.word(0x0500), b.state.st), (0xAB80, LGT | OP));
    // A byte address is taken modulo 16384: MOVB @FFFF,@4000
    let mut b = Bench::with(&[0xD820, 0xFFFF, 0x4000]);
    b.put(0x3FFE, 0x0055);
    b.put(0, 0xABCD);
    b.step();
    assert_eq!(b.word(0), 0x55CD);
    // The increment of a byte pointer wraps at 65536: MOVB *R1+,R2
    let mut b = Bench::with(&[0xD0B1]);
    b.set_r(1, 0xFFFF);
    b.step();
    assert_eq!(b.r(1), 0);
}

#[test]
fn word_addresses_lose_their_lowest_bit_and_the_high_weights() {
    // MOV @8401,@C503
    let mut b = Bench::with(&[0xC820, 0x8401, 0xC503]);
    b.put(0x0400, 0x1234);
    b.step();
    assert_eq!(b.word(0x0502), 0x1234);
    // *R1+ with an odd pointer stays odd
    let mut b = Bench::with(&[0xC0B1]);
    b.set_r(1, 0x0401);
    b.put(0x0400, 0x1234);
    b.step();
    assert_eq!((b.r(2), b.r(1)), (0x1234, 0x0403));
}

#[test]
fn workspace_and_pc_wrap() {
    // WP FFFE: R0 at 3FFE, R1 at 0000. MOV R0,R1 at PC FFFE; PC goes to 0.
    let mut b = Bench::new();
    b.state = State {
        wp: 0xFFFE,
        pc: 0xFFFA,
        ..State::BLANK
    };
    b.put(0xFFFA, 0xC040);
    b.set_r(0, 0x1234);
    b.step();
    assert_eq!((b.word(0), b.state.pc), (0x1234, 0xFFFC));

    let mut b = Bench::new();
    b.state = State {
        wp: 0x3FE4,
        pc: 0xFFFE,
        ..State::BLANK
    };
    b.put(0x3FFE, 0x020D); // LI R13 = the word at 3FE4 + 26 = 3FFE, the next word at 0
    b.put(0, 0x4321);
    b.step();
    assert_eq!((b.word(0x3FFE), b.state.pc), (0x4321, 2));

    // PC keeps its high weights, and PC 3FFE goes on to 4000.
    let mut b = Bench::new();
    b.state.pc = 0x3FFE;
    b.put(0x3FFE, 0x1000);
    b.step();
    assert_eq!(b.state.pc, 0x4000);
    // A jump backwards over 0 wraps.
    let mut b = Bench::new();
    b.state.pc = 0x0000;
    b.put(0, 0x1080);
    b.step();
    assert_eq!(b.state.pc, 0xFF02);
}

#[test]
fn the_increment_is_stored_before_the_value_is_read() {
    // MOV *R1+,R2 with R1 pointing at itself: the incremented value is read.
    let mut b = Bench::with(&[0xC0B1]);
    b.set_r(1, WP + 2);
    b.step();
    assert_eq!((b.r(1), b.r(2)), (WP + 4, WP + 4));
    // MOVB *R1+,R2: the byte read is the incremented pointer's high byte.
    let mut b = Bench::with(&[0xD0B1]);
    b.set_r(1, WP + 3);
    b.step();
    assert_eq!((b.r(1), b.r(2)), (WP + 4, 0x0400));
    // A *R1+,*R1+: the second address is one increment further.
    let mut b = Bench::with(&[0xAC71]);
    b.set_r(1, 0x0400);
    b.put(0x0400, 5);
    b.put(0x0402, 7);
    b.step();
    assert_eq!((b.word(0x0402), b.r(1)), (12, 0x0404));
    // MOV *R1+,R1: the result is stored last.
    let mut b = Bench::with(&[0xC071]);
    b.set_r(1, 0x0400);
    b.put(0x0400, 0x1234);
    b.step();
    assert_eq!(b.r(1), 0x1234);
    // MOV R1,*R1+: the source is read before the destination's increment.
    let mut b = Bench::with(&[0xCC41]);
    b.set_r(1, 0x0400);
    b.step();
    assert_eq!((b.word(0x0400), b.r(1)), (0x0400, 0x0402));
    // A R1,*R1+ with R1 pointing at itself: address, increment, then the value.
    let mut b = Bench::with(&[0xAC41]);
    b.set_r(1, WP + 2);
    b.step();
    assert_eq!(b.r(1), (WP + 2) + (WP + 4));
}

#[test]
fn the_destinations_further_word_is_fetched_after_the_sources_increment() {
    // MOV *R1+,@... where R1 is the very word that holds the further word.
    let mut b = Bench::new();
    b.state.wp = PC; // R0 is the instruction, R1 the further word
    b.program(&[0xC831, 0x0400]);
    b.put(0x0400, 0x1234);
    b.step();
    assert_eq!((b.word(0x0402), b.r(1), b.state.pc), (0x1234, 0x0402, PC + 4));
    assert_eq!(b.word(0x0400), 0x1234);
}

#[test]
fn indexed_source_and_immediate_in_the_workspace() {
    // LI R1 where R1 is its own immediate word.
    let mut b = Bench::new();
    b.state.wp = PC;
    b.program(&[0x0201, 0x5678]);
    b.step();
    assert_eq!(b.r(1), 0x5678);
    // AI R1 onto its own immediate word doubles it.
    let mut b = Bench::new();
    b.state.wp = PC;
    b.program(&[0x0221, 0x1111]);
    b.step();
    assert_eq!(b.r(1), 0x2222);
}

#[test]
fn pair_of_register_15() {
    let mut b = Bench::with(&[0x3BC1]); // MPY R1,R15
    b.set_r(1, 0x8000);
    b.set_r(15, 0x0003);
    b.step();
    assert_eq!((b.r(15), b.word(WP + 32)), (0x0001, 0x8000));
    let mut b = Bench::with(&[0x3FC1]); // DIV R1,R15
    b.set_r(1, 0x0010);
    b.set_r(15, 0x0001);
    b.put(WP + 32, 0x0007);
    b.step();
    assert_eq!((b.r(15), b.word(WP + 32)), (0x1000, 0x0007));
    // Over the end of memory.
    let mut b = Bench::with(&[0x3BC1]);
    b.state.wp = 0x3FE0;
    b.set_r(1, 0x8000);
    b.set_r(15, 0x0003);
    b.step();
    assert_eq!((b.word(0x3FFE), b.word(0)), (0x0001, 0x8000));
}

#[test]
fn divide_keeps_the_increment_and_compares_the_high_word_read_after_it() {
    // DIV *R1+,R2 with overflow: R1 incremented, pair kept.
    let mut b = Bench::with(&[0x3CB1]);
    b.set_r(1, 0x0400);
    b.put(0x0400, 5);
    b.set_r(2, 5);
    b.set_r(3, 9);
    b.state.st = 0x1234;
    b.step();
    assert_eq!((b.r(1), b.r(2), b.r(3), b.state.st), (0x0402, 5, 9, 0x1A34));
    // DIV *R1+,R1 with R1 = FFFE: after the increment the high word is 0.
    let mut b = Bench::with(&[0x3C71]);
    b.set_r(1, 0xFFFE);
    b.put(0xFFFE, 1);
    b.set_r(2, 0x0077);
    b.step();
    assert_eq!((b.r(1), b.r(2), b.state.st), (0x0077, 0, 0));
    // Division by 0 always overflows.
    let mut b = Bench::with(&[0x3C81]);
    b.step();
    assert_eq!(b.state.st, OV);
}

#[test]
fn abs_reads_after_the_increment() {
    let mut b = Bench::with(&[0x0771]); // ABS *R1+
    b.set_r(1, WP + 2); // points at itself: operand is the incremented pointer
    b.step();
    assert_eq!((b.r(1), b.state.st), (WP + 4, LGT | AGT));
    let mut b = Bench::with(&[0x0741]);
    b.set_r(1, 0xFFFF);
    b.step();
    assert_eq!((b.r(1), b.state.st), (1, LGT));
}

#[test]
fn branch_and_link() {
    // B R5: the register's address
    let mut b = Bench::with(&[0x0445]);
    b.step();
    assert_eq!(b.state.pc, WP + 10);
    // B *R2+ to an odd address
    let mut b = Bench::with(&[0x0472]);
    b.set_r(2, 0x8401);
    b.step();
    assert_eq!((b.state.pc, b.r(2)), (0x8400, 0x8403));
    // BL @0401
    let mut b = Bench::with(&[0x06A0, 0x0401]);
    b.step();
    assert_eq!((b.state.pc, b.r(11)), (0x0400, PC + 4));
    // BL *R11+: R11 is stored last
    let mut b = Bench::with(&[0x06BB]);
    b.set_r(11, 0x0500);
    b.step();
    assert_eq!((b.state.pc, b.r(11)), (0x0500, PC + 2));
    // BL *R11: address before the link
    let mut b = Bench::with(&[0x069B]);
    b.set_r(11, 0x0500);
    b.step();
    assert_eq!((b.state.pc, b.r(11)), (0x0500, PC + 2));
}

#[test]
fn blwp_and_rtwp() {
    let mut b = Bench::with(&[0x0420, 0x0401]); // BLWP @0401
    b.put(0x0400, 0x8503);
    b.put(0x0402, 0x0601);
    b.state.st = 0xFFFF;
    b.state.flags = 2;
    b.step();
    assert_eq!(
        (b.state.wp, b.state.pc, b.state.st, b.state.flags),
        (0x8502, 0x0600, 0xFFFF, 2)
    );
    assert_eq!((b.r(13), b.r(14), b.r(15)), (WP, PC + 4, 0xFFFF));
    // Second vector word over the end of the addresses.
    let mut b = Bench::with(&[0x0420, 0xFFFE]);
    b.put(0x3FFE, 0x0500);
    b.put(0x0000, 0x0600);
    b.step();
    assert_eq!((b.state.wp, b.state.pc), (0x0500, 0x0600));
    // BLWP *R1+: the increment is stored before the vector is read.
    let mut b = Bench::with(&[0x0431]);
    b.set_r(1, WP + 2);
    b.set_r(2, 0x0600);
    b.step();
    assert_eq!((b.state.wp, b.state.pc), (WP + 4, 0x0600));
    // The vector lies in the new workspace's R13 and R14: read first, then stored.
    let mut b = Bench::with(&[0x0420, 0x0500 + 26]);
    b.put(0x0500 + 26, 0x0500);
    b.put(0x0500 + 28, 0x0600);
    b.step();
    assert_eq!(
        (b.state.wp, b.state.pc, b.r(13), b.r(14)),
        (0x0500, 0x0600, WP, PC + 4)
    );
    // RTWP reads all three, loads all 16 bits of ST, drops lowest bits of WP and PC.
    for low in [0, 0x1F] {
        let mut b = Bench::with(&[0x0380 + low]);
        b.set_r(13, 0x9557);
        b.set_r(14, 0x8223);
        b.set_r(15, 0xBEEF);
        b.step();
        assert_eq!((b.state.wp, b.state.pc, b.state.st), (0x9556, 0x8222, 0xBEEF));
        assert_eq!(b.state.flags, 0);
    }
}

#[test]
fn xop() {
    // XOP @-2(R1),5 with an address above the memory and odd
    let mut b = Bench::with(&[0x2D61, 0xFFFE]);
    b.set_r(1, 0x9003);
    b.put(0x40 + 20, 0x0501);
    b.put(0x40 + 22, 0x0603);
    b.state.st = 0x000F;
    b.step();
    assert_eq!(
        (b.state.wp, b.state.pc, b.state.st, b.state.flags),
        (0x0500, 0x0602, 0x020F, 2)
    );
    assert_eq!((b.r(11), b.r(13), b.r(14), b.r(15)), (0x9001, WP, PC + 4, 0x000F));
    // XOP R3,15: the register's address; XOP *R3+,0: increment by 2
    let mut b = Bench::with(&[0x2FC3]);
    b.put(0x7C, 0x0500);
    b.step();
    assert_eq!((b.state.wp, b.r(11)), (0x0500, WP + 6));
    let mut b = Bench::with(&[0x2C33]);
    b.set_r(3, 0xFFFF);
    b.put(0x40, 0x0500);
    b.step();
    assert_eq!((b.r(11), b.word(WP + 6)), (0xFFFF, 0x0001));
}

#[test]
fn x_takes_further_words_from_after_itself() {
    // X R1 with LI R2 in R1
    let mut b = Bench::with(&[0x0481, 0x4567]);
    b.set_r(1, 0x0202);
    assert_eq!(b.step(), 0);
    assert_eq!((b.r(2), b.state.pc), (0x4567, PC + 4));
    // X @0400 with MOV @,@ there: words after X's own word
    let mut b = Bench::with(&[0x04A0, 0x0400, 0x0500, 0x0502]);
    b.put(0x0400, 0xC820);
    b.put(0x0500, 0x1234);
    b.step();
    assert_eq!((b.word(0x0502), b.state.pc), (0x1234, PC + 8));
    // A jump through X counts from the PC after X's own words.
    let mut b = Bench::with(&[0x04A0, 0x0400]);
    b.put(0x0400, 0x10FF);
    b.step();
    assert_eq!(b.state.pc, PC + 2);
    // BL through X links to after all words taken.
    let mut b = Bench::with(&[0x0481, 0x0500]);
    b.set_r(1, 0x06A0);
    b.step();
    assert_eq!((b.state.pc, b.r(11)), (0x0500, PC + 4));
    // IDLE and RTWP through X
    let mut b = Bench::with(&[0x0481]);
    b.set_r(1, 0x0340);
    b.step();
    assert_eq!((b.state.flags, b.state.pc), (1, PC + 2));
    // X *R1+ with R1 pointing at itself executes the incremented value.
    let mut b = Bench::with(&[0x04B1]);
    b.state.wp = 0x04C0; // R1 is at 04C2, which is CLR R2; incremented: CLR R4
    b.set_r(1, 0x04C2);
    b.set_r(2, 7);
    b.set_r(4, 9);
    b.step();
    assert_eq!((b.r(1), b.r(2), b.r(4)), (0x04C4, 7, 0));
}

#[test]
fn x_chains() {
    // Eight X in a row may end in an ordinary instruction.
    for links in 1..=9u16 {
        let mut b = Bench::new();
        // X @0400, X @0402 ... each takes its further word from after the last.
        let mut words = Vec::new();
        for i in 0..links {
            if i == 0 {
                words.push(0x04A0);
            }
            words.push(0x0400 + 2 * i);
            b.put(0x0400 + 2 * i, 0x04A0); // the next X @
        }
        b.put(0x0400 + 2 * (links - 1), 0x0585); // INC R5 at the end
        b.program(&words);
        let unassigned = b.step();
        if links <= 8 {
            assert_eq!((unassigned, b.r(5), b.state.pc), (0, 1, PC + 2 + 2 * links));
        } else {
            // The ninth X takes no word.
            assert_eq!((unassigned, b.r(5), b.state.pc), (1, 0, PC + 2 + 16));
        }
    }
    // The ninth X makes no increment: X *R1+ where R1 walks over X *R1+.
    let mut b = Bench::with(&[0x04B1]);
    b.set_r(1, 0x0400);
    for i in 0..16 {
        b.put(0x0400 + 2 * i, 0x04B1);
    }
    assert_eq!(b.step(), 1);
    assert_eq!((b.r(1), b.state.pc), (0x0410, PC + 2));
    // Each step has its own allowance.
    b.state.pc = PC;
    assert_eq!(b.step(), 1);
    assert_eq!(b.r(1), 0x0420);
}

#[test]
fn entries_through_x() {
    let mut b = Bench::with(&[0x0481, 0x0400]); // X R1 with BLWP @
    b.set_r(1, 0x0420);
    b.put(0x0400, 0x0500);
    b.put(0x0402, 0x0600);
    b.state.flags = 2;
    b.step();
    assert_eq!(
        (b.state.wp, b.state.pc, b.state.flags, b.r(14)),
        (0x0500, 0x0600, 2, PC + 4)
    );
    let mut b = Bench::with(&[0x0481]); // X R1 with XOP R2,0
    b.set_r(1, 0x2C02);
    b.put(0x40, 0x0500);
    b.put(0x42, 0x0600);
    b.step();
    assert_eq!(
        (b.state.wp, b.state.st, b.r(11), b.r(14)),
        (0x0500, X, WP + 4, PC + 2)
    );
}

#[test]
fn unassigned_words() {
    let is_unassigned =
        |word: u16| matches!(word, 0x0000..=0x01FF | 0x0320..=0x033F | 0x0780..=0x07FF | 0x0C00..=0x0FFF);
    for word in 0..=0xFFFFu16 {
        let mut b = Bench::new();
        b.put(0x0400, 0);
        b.program(&[word]);
        let state = b.state;
        let memory = b.memory.clone();
        let count = b.step();
        // X R0 and the like reach a 0000 word here.
        let is_x = word & 0xFFC0 == 0x0480;
        assert_eq!(
            count,
            usize::from(is_unassigned(word) || is_x && b.word(PC) == word),
            "{word:04X}"
        );
        if is_unassigned(word) {
            assert_eq!((b.state, &b.memory), (State { pc: PC + 2, ..state }, &memory));
            // Reached through X it does nothing more.
            let mut b = Bench::with(&[0x04B1]);
            b.set_r(1, 0x0400);
            b.put(0x0400, word);
            assert_eq!(b.step(), 1);
            assert_eq!((b.state.pc, b.r(1), b.state.st), (PC + 2, 0x0402, 0));
        }
    }
}
