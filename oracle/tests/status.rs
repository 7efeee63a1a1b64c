//! Results and status bits of each instruction, against definitions over whole
//! numbers, with the other status bits both all 0 and all 1 before.
mod common;
use common::*;

const EDGES: [u16; 20] = [
    0, 1, 2, 3, 0x7F, 0x80, 0xFF, 0x100, 0x5555, 0x7FFD, 0x7FFE, 0x7FFF, 0x8000, 0x8001, 0x8002, 0xAAAA,
    0xFF00, 0xFFFD, 0xFFFE, 0xFFFF,
];

fn signed(value: u16) -> i64 {
    i64::from(value as i16)
}

fn signed_byte(value: u16) -> i64 {
    i64::from(value as u8 as i8)
}

/// L>, A>, EQ of comparing whole numbers.
fn order(unsigned: (i64, i64), signed: (i64, i64)) -> u16 {
    let mut st = 0;
    if unsigned.0 > unsigned.1 {
        st |= LGT;
    }
    if signed.0 > signed.1 {
        st |= AGT;
    }
    if unsigned.0 == unsigned.1 {
        st |= EQ;
    }
    st
}

fn against_zero(value: u16) -> u16 {
    order((value.into(), 0), (signed(value), 0))
}

fn byte_against_zero(value: u16) -> u16 {
    order((i64::from(value & 0xFF), 0), (signed_byte(value), 0)) | parity(value)
}

fn parity(byte: u16) -> u16 {
    let mut ones = 0;
    for i in 0..8 {
        if byte & (1 << i) != 0 {
            ones += 1;
        }
    }
    if ones % 2 == 1 {
        OP
    } else {
        0
    }
}

fn when(condition: bool, weight: u16) -> u16 {
    if condition {
        weight
    } else {
        0
    }
}

fn fits(value: i64) -> bool {
    (-32768..=32767).contains(&value)
}

fn byte_fits(value: i64) -> bool {
    (-128..=127).contains(&value)
}

/// Runs `words` on R1 = source, R2 = destination, from both status extremes;
/// only the bits of `affected` may change, and they must be as in `expected`.
fn check(b: &mut Bench, words: &[u16], r1: u16, r2: u16, affected: u16, expected: u16) -> (u16, u16) {
    let mut outcome = None;
    for before in [0x0000, 0xFFFF] {
        b.state.wp = WP;
        b.state.pc = PC;
        b.state.st = before;
        b.state.flags = 0;
        b.program(words);
        b.set_r(1, r1);
        b.set_r(2, r2);
        assert_eq!(b.step(), 0);
        assert_eq!(
            b.state.st,
            before & !affected | expected,
            "{:04X} on {r1:04X} {r2:04X} from {before:04X}",
            words[0]
        );
        assert_eq!(b.state.pc, PC + 2 * words.len() as u16);
        let now = (b.r(1), b.r(2));
        assert_eq!(*outcome.get_or_insert(now), now);
    }
    outcome.unwrap()
}

fn pairs() -> Vec<(u16, u16)> {
    let mut all = Vec::new();
    for a in EDGES {
        for b in EDGES {
            all.push((a, b));
        }
    }
    let mut random = Random(0x1234_5678_9ABC_DEF1);
    for _ in 0..3000 {
        all.push((random.word(), random.word()));
    }
    all
}

#[test]
fn words_of_two_operands() {
    let mut b = Bench::new();
    for (s, d) in pairs() {
        let (si, di) = (i64::from(s), i64::from(d));
        // A R1,R2
        let r = s.wrapping_add(d);
        let st = against_zero(r) | when(si + di > 65535, C) | when(!fits(signed(s) + signed(d)), OV);
        assert_eq!(
            check(&mut b, &[0xA081], s, d, LGT | AGT | EQ | C | OV, st),
            (s, r)
        );
        // S R1,R2
        let r = d.wrapping_sub(s);
        let st = against_zero(r) | when(di >= si, C) | when(!fits(signed(d) - signed(s)), OV);
        assert_eq!(
            check(&mut b, &[0x6081], s, d, LGT | AGT | EQ | C | OV, st),
            (s, r)
        );
        // C R1,R2
        let st = order((si, di), (signed(s), signed(d)));
        assert_eq!(check(&mut b, &[0x8081], s, d, LGT | AGT | EQ, st), (s, d));
        // MOV, SOC, SZC
        assert_eq!(
            check(&mut b, &[0xC081], s, d, LGT | AGT | EQ, against_zero(s)),
            (s, s)
        );
        assert_eq!(
            check(&mut b, &[0xE081], s, d, LGT | AGT | EQ, against_zero(s | d)),
            (s, s | d)
        );
        assert_eq!(
            check(&mut b, &[0x4081], s, d, LGT | AGT | EQ, against_zero(d & !s)),
            (s, d & !s)
        );
        // XOR, COC, CZC
        assert_eq!(
            check(&mut b, &[0x2881], s, d, LGT | AGT | EQ, against_zero(s ^ d)),
            (s, s ^ d)
        );
        assert_eq!(check(&mut b, &[0x2081], s, d, EQ, when(s & d == s, EQ)), (s, d));
        assert_eq!(check(&mut b, &[0x2481], s, d, EQ, when(s & d == 0, EQ)), (s, d));
    }
}

#[test]
fn bytes_of_two_operands() {
    let mut b = Bench::new();
    let all = LGT | AGT | EQ | C | OV | OP;
    for s in 0..=255u16 {
        for d in (0..=255u16).step_by(3).chain([0x7F, 0x80, 0xFE]) {
            // The low bytes must not matter, and must stay.
            let (r1, r2) = (s << 8 | 0x5A, d << 8 | 0xC3);
            let with = |byte: u16| (r1, (byte & 0xFF) << 8 | 0xC3);
            let (si, di) = (i64::from(s), i64::from(d));
            let r = s.wrapping_add(d);
            let st = byte_against_zero(r)
                | when(si + di > 255, C)
                | when(!byte_fits(signed_byte(s) + signed_byte(d)), OV);
            assert_eq!(check(&mut b, &[0xB081], r1, r2, all, st), with(r));
            let r = d.wrapping_sub(s);
            let st = byte_against_zero(r)
                | when(di >= si, C)
                | when(!byte_fits(signed_byte(d) - signed_byte(s)), OV);
            assert_eq!(check(&mut b, &[0x7081], r1, r2, all, st), with(r));
            // CB: OP is of the source.
            let st = order((si, di), (signed_byte(s), signed_byte(d))) | parity(s);
            assert_eq!(
                check(&mut b, &[0x9081], r1, r2, LGT | AGT | EQ | OP, st),
                (r1, r2)
            );
            let few = LGT | AGT | EQ | OP;
            assert_eq!(
                check(&mut b, &[0xD081], r1, r2, few, byte_against_zero(s)),
                with(s)
            );
            assert_eq!(
                check(&mut b, &[0xF081], r1, r2, few, byte_against_zero(s | d)),
                with(s | d)
            );
            assert_eq!(
                check(&mut b, &[0x5081], r1, r2, few, byte_against_zero(d & !s)),
                with(d & !s)
            );
        }
    }
}

#[test]
fn single_operands() {
    let mut b = Bench::new();
    let five = LGT | AGT | EQ | C | OV;
    for v in (0..=0xFFFFu16).step_by(7).chain(EDGES) {
        let (vi, vs) = (i64::from(v), signed(v));
        let r = v.wrapping_neg();
        let st = against_zero(r) | when(v == 0, C) | when(v == 0x8000, OV);
        assert_eq!(check(&mut b, &[0x0501], v, 9, five, st), (r, 9));
        // ABS judges the operand.
        let st = against_zero(v) | when(v == 0x8000, OV);
        let r = if vs < 0 { v.wrapping_neg() } else { v };
        assert_eq!(check(&mut b, &[0x0741], v, 9, five, st), (r, 9));
        assert_eq!(
            check(&mut b, &[0x0541], v, 9, LGT | AGT | EQ, against_zero(!v)),
            (!v, 9)
        );
        for (word, by) in [(0x0581, 1), (0x05C1, 2)] {
            let r = v.wrapping_add(by);
            let by = i64::from(by);
            let st = against_zero(r) | when(vi + by > 65535, C) | when(!fits(vs + by), OV);
            assert_eq!(check(&mut b, &[word], v, 9, five, st), (r, 9));
        }
        for (word, by) in [(0x0601, 1), (0x0641, 2)] {
            let r = v.wrapping_sub(by);
            let by = i64::from(by);
            let st = against_zero(r) | when(vi >= by, C) | when(!fits(vs - by), OV);
            assert_eq!(check(&mut b, &[word], v, 9, five, st), (r, 9));
        }
        // CLR, SETO, SWPB touch no status bit.
        assert_eq!(check(&mut b, &[0x04C1], v, 9, 0, 0), (0, 9));
        assert_eq!(check(&mut b, &[0x0701], v, 9, 0, 0), (0xFFFF, 9));
        assert_eq!(check(&mut b, &[0x06C1], v, 9, 0, 0), (v << 8 | v >> 8, 9));
    }
}

#[test]
fn immediates_and_internal_registers() {
    let mut b = Bench::new();
    for (v, i) in pairs() {
        // With weight 16 set and not set: it is ignored.
        for n in [0x00, 0x10] {
            let r = v.wrapping_add(i);
            let st = against_zero(r)
                | when(i64::from(v) + i64::from(i) > 65535, C)
                | when(!fits(signed(v) + signed(i)), OV);
            assert_eq!(
                check(&mut b, &[0x0221 + n, i], v, 9, LGT | AGT | EQ | C | OV, st),
                (r, 9)
            );
            let three = LGT | AGT | EQ;
            assert_eq!(
                check(&mut b, &[0x0201 + n, i], v, 9, three, against_zero(i)),
                (i, 9)
            );
            assert_eq!(
                check(&mut b, &[0x0241 + n, i], v, 9, three, against_zero(v & i)),
                (v & i, 9)
            );
            assert_eq!(
                check(&mut b, &[0x0261 + n, i], v, 9, three, against_zero(v | i)),
                (v | i, 9)
            );
            let st = order((v.into(), i.into()), (signed(v), signed(i)));
            assert_eq!(check(&mut b, &[0x0281 + n, i], v, 9, three, st), (v, 9));
        }
        for low in [0, 0x1F, 0x0A] {
            let (r1, _) = check(&mut b, &[0x0300 + low, i], v, 9, 0x000F, i & 15);
            assert_eq!(r1, v);
        }
    }
    for n in [0x00, 0x10] {
        assert_eq!(check(&mut b, &[0x02A1 + n], 7, 9, 0, 0), (WP, 9));
        b.state.st = 0xA5C3;
        b.state.pc = PC;
        b.program(&[0x02C1 + n]);
        b.step();
        assert_eq!((b.r(1), b.state.st), (0xA5C3, 0xA5C3));
    }
}

#[test]
fn load_workspace_pointer() {
    for low in [0, 0x1F] {
        let mut b = Bench::with(&[0x02E0 + low, 0xC357]);
        b.state.st = 0xFFFF;
        b.step();
        assert_eq!((b.state.wp, b.state.pc, b.state.st), (0xC356, PC + 4, 0xFFFF));
    }
}

#[test]
fn control_forms() {
    for low in [0, 1, 0x1F] {
        for (word, flags, affected) in [
            (0x0340, 1, 0),
            (0x0360, 0, 0x000F),
            (0x03A0, 0, 0),
            (0x03C0, 0, 0),
            (0x03E0, 0, 0),
        ] {
            let mut b = Bench::with(&[word + low]);
            b.state.st = 0xFFFF;
            b.state.psi.directions = 0xFFFF;
            b.state.psi.latches = 0xFFFF;
            let psi = b.state.psi;
            let memory = b.memory.clone();
            assert_eq!(b.step(), 0);
            assert_eq!(b.state.st, 0xFFFF & !affected);
            assert_eq!((b.state.pc, b.state.wp, b.state.flags), (PC + 2, WP, flags));
            assert_eq!((b.state.psi, b.memory), (psi, memory));
        }
    }
}

#[test]
fn shifts() {
    let mut b = Bench::new();
    for count in 1..=16u16 {
        for v in (0..=0xFFFFu16).step_by(97).chain(EDGES) {
            let field = if count == 16 { 0 } else { count << 4 };
            b.state.wp = WP;
            b.set_r(0, 0xABC0); // modulo 16 it is 0, which means 16
            let four = LGT | AGT | EQ | C;
            // One place at a time, as the definitions say.
            let (mut sra, mut srl, mut src, mut sla) = (v, v, v, v);
            let (mut c_sra, mut c_srl, mut c_src, mut c_sla, mut changed) = (0, 0, 0, 0, false);
            for _ in 0..count {
                c_sra = sra & 1;
                sra = sra >> 1 | sra & 0x8000;
                c_srl = srl & 1;
                srl >>= 1;
                c_src = src & 1;
                src = src >> 1 | c_src << 15;
                c_sla = sla >> 15;
                let next = sla << 1;
                changed |= (next ^ sla) & 0x8000 != 0;
                sla = next;
            }
            let st = |r: u16, c: u16| against_zero(r) | when(c == 1, C);
            assert_eq!(
                check(&mut b, &[0x0801 | field], v, 9, four, st(sra, c_sra)),
                (sra, 9)
            );
            assert_eq!(
                check(&mut b, &[0x0901 | field], v, 9, four, st(srl, c_srl)),
                (srl, 9)
            );
            assert_eq!(
                check(&mut b, &[0x0B01 | field], v, 9, four, st(src, c_src)),
                (src, 9)
            );
            let expected = st(sla, c_sla) | when(changed, OV);
            assert_eq!(
                check(&mut b, &[0x0A01 | field], v, 9, four | OV, expected),
                (sla, 9)
            );
            // The same count from R0, with high bits that do not matter.
            b.set_r(0, 0x5550 | count & 15);
            assert_eq!(check(&mut b, &[0x0A01], v, 9, four | OV, expected), (sla, 9));
        }
    }
}

#[test]
fn shifts_of_r0_by_r0() {
    let mut b = Bench::with(&[0x0900]); // SRL R0,0
    b.set_r(0, 0xFF03);
    b.step();
    assert_eq!((b.r(0), b.state.st), (0xFF03 >> 3, LGT | AGT));
    let mut b = Bench::with(&[0x0B00]); // SRC R0,0 with count 16
    b.set_r(0, 0x8010);
    b.step();
    assert_eq!((b.r(0), b.state.st), (0x8010, LGT | C));
}

#[test]
fn multiply_and_divide() {
    let mut b = Bench::new();
    let mut random = Random(77);
    for (s, d) in pairs() {
        let low = random.word();
        b.state.wp = WP;
        let product = u64::from(s) * u64::from(d);
        b.set_r(3, low);
        assert_eq!(check(&mut b, &[0x3881], s, d, 0, 0), (s, (product >> 16) as u16));
        assert_eq!(b.r(3), product as u16);

        b.set_r(3, low);
        if s <= d {
            assert_eq!(check(&mut b, &[0x3C81], s, d, OV, OV), (s, d));
            assert_eq!(b.r(3), low);
        } else {
            let dividend = u64::from(d) << 16 | u64::from(low);
            // check() runs it twice, so the low word must be put back: do it by hand.
            for before in [0, 0xFFFF] {
                b.state.pc = PC;
                b.state.st = before;
                b.program(&[0x3C81]);
                b.set_r(1, s);
                b.set_r(2, d);
                b.set_r(3, low);
                b.step();
                assert_eq!(u64::from(b.r(2)), dividend / u64::from(s));
                assert_eq!(u64::from(b.r(3)), dividend % u64::from(s));
                assert_eq!(b.state.st, before & !OV);
            }
        }
    }
}

#[test]
fn jumps() {
    type Condition = fn(u16) -> bool;
    let conditions: [Condition; 13] = [
        |_| true,
        |st| st & AGT == 0 && st & EQ == 0,
        |st| st & LGT == 0 || st & EQ != 0,
        |st| st & EQ != 0,
        |st| st & LGT != 0 || st & EQ != 0,
        |st| st & AGT != 0,
        |st| st & EQ == 0,
        |st| st & C == 0,
        |st| st & C != 0,
        |st| st & OV == 0,
        |st| st & LGT == 0 && st & EQ == 0,
        |st| st & LGT != 0 && st & EQ == 0,
        |st| st & OP != 0,
    ];
    let mut b = Bench::new();
    for (i, condition) in conditions.iter().enumerate() {
        for high in 0..64u16 {
            for displacement in [0u16, 1, 0x7F, 0x80, 0xFE, 0xFF] {
                let st = high << 10 | 0x0003;
                b.state.pc = PC;
                b.state.st = st;
                b.program(&[0x1000 | (i as u16) << 8 | displacement]);
                assert_eq!(b.step(), 0);
                let far = if displacement >= 0x80 {
                    displacement as i32 - 256
                } else {
                    displacement as i32
                };
                let target = if condition(st) {
                    i32::from(PC) + 2 + 2 * far
                } else {
                    i32::from(PC) + 2
                };
                assert_eq!(i32::from(b.state.pc), target);
                assert_eq!(b.state.st, st);
            }
        }
    }
}
