//! The marked cases P1 to P12, one by one.
mod common;
use common::*;
use oracle::{Pins, Step};

#[test]
fn p1_add_overflow() {
    let mut b = Bench::with(&[0xA081]);
    b.set_r(1, 0x7FFF);
    b.set_r(2, 1);
    b.step();
    assert_eq!((b.r(2), b.state.st), (0x8000, 0x8800));
}

#[test]
fn p2_subtract_zeros() {
    let mut b = Bench::with(&[0x6081]);
    b.step();
    assert_eq!((b.r(2), b.state.st), (0, 0x3000));
}

#[test]
fn p3_negate_8000() {
    let mut b = Bench::with(&[0x0501]);
    b.set_r(1, 0x8000);
    b.step();
    assert_eq!((b.r(1), b.state.st), (0x8000, 0x8800));
}

#[test]
fn p4_absolute_8000() {
    let mut b = Bench::with(&[0x0741]);
    b.set_r(1, 0x8000);
    b.step();
    assert_eq!((b.r(1), b.state.st), (0x8000, 0x8800));
}

#[test]
fn p5_divide() {
    let mut b = Bench::with(&[0x3C81]);
    b.set_r(1, 1);
    b.set_r(2, 1);
    b.set_r(3, 0);
    b.step();
    assert_eq!((b.r(2), b.r(3), b.state.st), (1, 0, 0x0800));

    let mut b = Bench::with(&[0x3C81]);
    b.set_r(1, 2);
    b.set_r(2, 1);
    b.set_r(3, 0);
    b.step();
    assert_eq!((b.r(2), b.r(3), b.state.st), (0x8000, 0, 0));
}

#[test]
fn p6_shift_left_by_sixteen() {
    let mut b = Bench::with(&[0x0A01]);
    b.set_r(1, 1);
    b.step();
    assert_eq!((b.r(1), b.state.st), (0, 0x3800));
}

#[test]
fn p7_load_clock() {
    let mut b = Bench::with(&[0x33C1]);
    b.set_r(1, 0x01FF);
    b.step();
    assert!(b.state.psi.control());
    assert_eq!(
        (b.state.psi.load, b.state.psi.decrementer, b.state.st),
        (255, 255, 0xC000)
    );
}

#[test]
fn p8_clock_period() {
    let mut psi = oracle::Psi {
        load: 1,
        decrementer: 1,
        read_register: 1,
        ..oracle::Psi::BLANK
    };
    psi.advance(63);
    assert_eq!(psi.pending, 0);
    psi.advance(1);
    assert_eq!(psi.pending, 1);
    psi.write_bit(oracle::CruBit::from_r12(6), true); // clears pending
    assert_eq!(psi.pending, 0);
    psi.advance(127);
    assert_eq!(psi.pending, 0);
    psi.advance(1);
    assert_eq!(psi.pending, 1);

    // The same through the run: SBO 3 clears it.
    let mut b = Bench::with(&[0x1D03]);
    b.state.psi.load = 1;
    b.state.psi.decrementer = 1;
    b.state.psi.read_register = 1;
    b.state.pc = PC + 0x20;
    b.program(&[0x10FF]);
    b.run(&[cycles(63)]);
    assert_eq!(b.state.psi.pending, 0);
    b.run(&[cycles(1)]);
    assert_eq!(b.state.psi.pending, 1);
    b.state.pc = PC;
    b.run(&[cycles(0)]);
    assert_eq!(b.state.psi.pending, 0);
    b.state.pc = PC + 0x20;
    b.run(&[cycles(127)]);
    assert_eq!(b.state.psi.pending, 0);
    b.run(&[cycles(1)]);
    assert_eq!(b.state.psi.pending, 1);
}

#[test]
fn p9_codes_of_int7_and_int8() {
    let psi = oracle::Psi {
        control_and_masks: 0x0180,
        ..oracle::Psi::BLANK
    };
    assert_eq!(psi.request_code(Pins(low(&[7, 8]))), 7);
    assert_eq!(psi.request_code(Pins(low(&[8]))), 0);

    let mut b = Bench::with(&[0x10FF]);
    b.state.psi.control_and_masks = 0x0180;
    b.state.st = 0x000F;
    assert_eq!(b.kind(low(&[7, 8])), Step::Instruction);
    assert_eq!(b.kind(low(&[8])), Step::Reset);
}

#[test]
fn p10_jump_to_itself() {
    let mut b = Bench::with(&[0x10FF]);
    b.step();
    assert_eq!(b.state.pc, PC);
}

#[test]
fn p11_level_one_entry() {
    let mut b = Bench::with(&[0x10FF]);
    b.put(4, 0x0400);
    b.put(6, 0x0500);
    b.state.st = 0x0004;
    b.state.psi.control_and_masks = 1 << 3;
    assert_eq!(b.kind(low(&[3])), Step::Level(1));
    assert_eq!((b.state.wp, b.state.pc, b.state.st), (0x0400, 0x0500, 0));
    assert_eq!((b.r(13), b.r(14), b.r(15)), (WP, PC, 0x0004));
    assert_eq!(b.state.flags, 2);
}

#[test]
fn p12_ninth_x() {
    let mut b = Bench::with(&[0x0481]);
    b.set_r(1, 0x0481);
    let before = b.memory.clone();
    assert_eq!(b.step(), 1);
    assert_eq!(b.state.pc, PC + 2);
    assert_eq!(b.memory, before);
}
