//! Which addresses and CRU bits each instruction and each entry touches, how, and
//! in what order: an access with S0's line set is seen by the PSI, so none may be
//! missing and none too many.

use super::{Machine, Step};
use crate::bus::{Access, Access::*, Memory, MEMORY_SIZE};
use crate::psi::Psi;
use crate::state::{State, FLAG_IDLE, FLAG_NO_SAMPLE};

const WP: u16 = 0x0300;
const PC: u16 = 0x0100;
/// All pins high, no cycles.
const QUIET: u32 = 0x003F_FFFF;

fn r(n: u16) -> u16 {
    WP + 2 * n
}

const START: State = State {
    wp: WP,
    pc: PC,
    ..State::BLANK
};

/// What one step touches with `words` at the PC, and then `more` words put in memory.
fn touched(words: &[u16], more: &[(u16, u16)]) -> Vec<(Access, u16)> {
    stepped(START, QUIET, words, more).1
}

/// The same from any state and with any record, and what the step was.
fn stepped(state: State, record: u32, words: &[u16], more: &[(u16, u16)]) -> (Step, Vec<(Access, u16)>) {
    let mut memory: Box<Memory> = Box::new([0; MEMORY_SIZE]);
    let mut machine = Machine::new(&mut memory, state);
    for (i, &word) in words.iter().enumerate() {
        machine.bus.write_word(PC + 2 * i as u16, word);
    }
    for &(address, word) in more {
        machine.bus.write_word(address, word);
    }
    machine.bus.touched.clear();
    let step = machine.step(record);
    (step, machine.bus.touched.clone())
}

/// What an entry to the workspace `wp` saves.
fn saved(wp: u16) -> [(Access, u16); 3] {
    [(WriteWord, wp + 26), (WriteWord, wp + 28), (WriteWord, wp + 30)]
}

#[test]
fn two_operands() {
    // A R1,R2 reads both, C stores nothing, MOV does not read its destination.
    let fetch = (Fetch, PC);
    let both = [fetch, (ReadWord, r(1)), (ReadWord, r(2)), (WriteWord, r(2))];
    assert_eq!(touched(&[0xA081], &[]), both);
    assert_eq!(touched(&[0x6081], &[]), both);
    assert_eq!(touched(&[0xE081], &[]), both);
    assert_eq!(touched(&[0x4081], &[]), both);
    assert_eq!(touched(&[0x8081], &[]), both[..3]);
    assert_eq!(touched(&[0xC081], &[]), [fetch, both[1], both[3]]);
    // Byte forms touch single bytes.
    let bytes = [fetch, (ReadByte, r(1)), (ReadByte, r(2)), (WriteByte, r(2))];
    assert_eq!(touched(&[0xB081], &[]), bytes);
    assert_eq!(touched(&[0x7081], &[]), bytes);
    assert_eq!(touched(&[0xF081], &[]), bytes);
    assert_eq!(touched(&[0x5081], &[]), bytes);
    assert_eq!(touched(&[0x9081], &[]), bytes[..3]);
    assert_eq!(touched(&[0xD081], &[]), [fetch, bytes[1], bytes[3]]);
    // S *R1+,@4000(R2): increment, value, then the destination's words.
    assert_eq!(
        touched(&[0x68B1, 0x4000], &[(r(1), 0x8401), (r(2), 7)]),
        [
            fetch,
            (ReadWord, r(1)),
            (WriteWord, r(1)),
            (ReadWord, 0x8401),
            (ReadWord, r(2)),
            (Fetch, PC + 2),
            (ReadWord, 0x4007),
            (WriteWord, 0x4007),
        ]
    );
    // MOVB @5,*R2+
    assert_eq!(
        touched(&[0xDCA0, 0x0005], &[(r(2), 0x8401)]),
        [
            fetch,
            (Fetch, PC + 2),
            (ReadByte, 5),
            (ReadWord, r(2)),
            (WriteWord, r(2)),
            (WriteByte, 0x8401),
        ]
    );
}

#[test]
fn single_operands() {
    let fetch = (Fetch, PC);
    let (read, write) = ((ReadWord, r(1)), (WriteWord, r(1)));
    for word in [0x0501, 0x0541, 0x0581, 0x05C1, 0x0601, 0x0641, 0x06C1] {
        assert_eq!(touched(&[word], &[]), [fetch, read, write], "{word:04X}");
    }
    // CLR and SETO read nothing; ABS stores a negative operand's only; B reads nothing.
    assert_eq!(touched(&[0x04C1], &[]), [fetch, write]);
    assert_eq!(touched(&[0x0701], &[]), [fetch, write]);
    assert_eq!(touched(&[0x0741], &[]), [fetch, read]);
    assert_eq!(touched(&[0x0741], &[(r(1), 0x7FFF)]), [fetch, read]);
    assert_eq!(touched(&[0x0741], &[(r(1), 0x8000)]), [fetch, read, write]);
    assert_eq!(touched(&[0x0741], &[(r(1), 0xFFFF)]), [fetch, read, write]);
    assert_eq!(touched(&[0x0441], &[]), [fetch]);
    assert_eq!(touched(&[0x0451], &[]), [fetch, read]);
    assert_eq!(touched(&[0x0681], &[]), [fetch, (WriteWord, r(11))]);
    assert_eq!(touched(&[0x06B1], &[]), [fetch, read, write, (WriteWord, r(11))]);
}

#[test]
fn registers_and_immediates() {
    let fetch = (Fetch, PC);
    let further = (Fetch, PC + 2);
    let (read, write) = ((ReadWord, r(1)), (WriteWord, r(1)));
    assert_eq!(touched(&[0x0201, 5], &[]), [fetch, further, write]); // LI
    for word in [0x0221, 0x0241, 0x0261] {
        assert_eq!(touched(&[word, 5], &[]), [fetch, read, further, write]);
    }
    assert_eq!(touched(&[0x0281, 5], &[]), [fetch, read, further]); // CI
    assert_eq!(touched(&[0x02A1], &[]), [fetch, write]); // STWP
    assert_eq!(touched(&[0x02C1], &[]), [fetch, write]); // STST
    assert_eq!(touched(&[0x02E0, 5], &[]), [fetch, further]); // LWPI
    assert_eq!(touched(&[0x0300, 5], &[]), [fetch, further]); // LIMI
    for word in [
        0x0340, 0x0360, 0x03A0, 0x03C0, 0x03E0, 0x1000, 0x0000, 0x0320, 0x0780, 0x0C00,
    ] {
        assert_eq!(touched(&[word], &[]), [fetch]);
    }
    // RTWP
    let back = [fetch, (ReadWord, r(13)), (ReadWord, r(14)), (ReadWord, r(15))];
    assert_eq!(touched(&[0x0380], &[]), back);
}

#[test]
fn shifts() {
    // R0 is read only where count 0 is coded. The result is stored even where
    // nothing changes.
    let (read, write) = ((ReadWord, r(1)), (WriteWord, r(1)));
    for code in [0x0801, 0x0901, 0x0A01, 0x0B01] {
        for count in 1..16 {
            assert_eq!(touched(&[code + 16 * count], &[]), [(Fetch, PC), read, write]);
        }
        for r0 in [0, 3, 16] {
            assert_eq!(
                touched(&[code], &[(r(0), r0)]),
                [(Fetch, PC), read, (ReadWord, r(0)), write]
            );
        }
    }
}

#[test]
fn jumps() {
    // Neither the target nor the next word is touched, taken or not.
    for code in 0x10..=0x1C {
        for st in [0, 0xFFFF] {
            let state = State { st, ..START };
            for displacement in [0, 0x10, 0xF0] {
                let word = code * 256 + displacement;
                assert_eq!(stepped(state, QUIET, &[word], &[]).1, [(Fetch, PC)]);
            }
        }
    }
}

#[test]
fn source_and_register() {
    let fetch = (Fetch, PC);
    let source = (ReadWord, r(1));
    let high = (ReadWord, r(2));
    assert_eq!(touched(&[0x2081], &[]), [fetch, source, high]); // COC
    assert_eq!(touched(&[0x2481], &[]), [fetch, source, high]); // CZC
    assert_eq!(touched(&[0x2881], &[]), [fetch, source, high, (WriteWord, r(2))]); // XOR

    // MPY, whatever the factors are.
    let pair = [(WriteWord, r(2)), (WriteWord, r(3))];
    for factor in [0, 1] {
        assert_eq!(
            touched(&[0x3881], &[(r(1), factor)]),
            [fetch, source, high, pair[0], pair[1]]
        );
    }
    // DIV that overflows does not read the low word; the high word it always reads.
    for (divisor, high_word) in [(0, 0), (0, 5), (5, 5), (5, 6)] {
        assert_eq!(
            touched(&[0x3C81], &[(r(1), divisor), (r(2), high_word)]),
            [fetch, source, high]
        );
    }
    assert_eq!(
        touched(&[0x3C81], &[(r(1), 1)]),
        [fetch, source, high, (ReadWord, r(3)), pair[0], pair[1]]
    );
    // R15's pair is the word after it.
    let last = (ReadWord, r(15));
    let pair = [(WriteWord, r(15)), (WriteWord, r(16))];
    assert_eq!(touched(&[0x3BC1], &[]), [fetch, source, last, pair[0], pair[1]]);
    assert_eq!(
        touched(&[0x3FC1], &[(r(1), 1)]),
        [fetch, source, last, (ReadWord, r(16)), pair[0], pair[1]]
    );
}

#[test]
fn entries_and_x() {
    let fetch = (Fetch, PC);
    // BLWP R1
    let mut expected = vec![fetch, (ReadWord, r(1)), (ReadWord, r(2))];
    expected.extend(saved(0x0400));
    assert_eq!(touched(&[0x0401], &[(r(1), 0x0401)]), expected);
    // XOP R1,2 does not read the operand.
    let mut expected = vec![fetch, (ReadWord, 0x48), (ReadWord, 0x4A)];
    expected.extend(saved(0x0400));
    expected.push((WriteWord, 0x0400 + 22));
    assert_eq!(touched(&[0x2C81], &[(0x48, 0x0400)]), expected);
    // X R1 with LI R2
    assert_eq!(
        touched(&[0x0481, 5], &[(r(1), 0x0202)]),
        [fetch, (ReadWord, r(1)), (Fetch, PC + 2), (WriteWord, r(2))]
    );
    // The ninth X touches nothing.
    let mut expected = vec![fetch];
    expected.extend([(ReadWord, r(1)); 8]);
    assert_eq!(touched(&[0x0481], &[(r(1), 0x0481)]), expected);
}

// ---- general operands, in all their forms ----

/// A step that is put together with what it is to touch.
struct Case {
    words: Vec<u16>,
    more: Vec<(u16, u16)>,
    touched: Vec<(Access, u16)>,
}

impl Case {
    fn new(code: u16) -> Case {
        Case {
            words: vec![code],
            more: Vec::new(),
            touched: vec![(Fetch, PC)],
        }
    }

    fn touch(&mut self, access: Access, at: u16) {
        self.touched.push((access, at));
    }

    fn put(&mut self, address: u16, word: u16) {
        self.more.push((address, word));
    }

    /// Makes a further word.
    fn further(&mut self, word: u16) {
        self.touch(Fetch, PC + 2 * self.words.len() as u16);
        self.words.push(word);
    }

    /// Makes the operand, whose bits begin at weight `weight`, be the register n
    /// (form 0) or lie at `at`, reached in another form. The address.
    fn operand(&mut self, form: u16, n: u16, at: u16, weight: u16) -> u16 {
        let field = match form {
            0 => n,
            1 => 0x10 + n,
            2 => 0x20,
            3 => 0x20 + n,
            _ => 0x30 + n,
        };
        self.words[0] |= field * weight;
        match form {
            0 => return r(n),
            1 => {
                self.put(r(n), at);
                self.touch(ReadWord, r(n));
            }
            2 => self.further(at),
            3 => {
                self.put(r(n), 6);
                self.touch(ReadWord, r(n));
                self.further(at - 6);
            }
            _ => {
                self.put(r(n), at);
                self.touch(ReadWord, r(n));
                self.touch(WriteWord, r(n));
            }
        }
        at
    }

    fn check(&self) {
        let touched = touched(&self.words, &self.more);
        assert_eq!(touched, self.touched, "{:04X?}", self.words);
    }
}

/// The forms of an operand: R, *R, @, @(R), *R+.
const FORMS: std::ops::Range<u16> = 0..5;

const SOURCE: u16 = 0x8401;
const DESTINATION: u16 = 0x4823;

#[test]
fn two_operands_in_all_forms() {
    for code in 4..16 {
        let (read, write) = if code % 2 == 0 {
            (ReadWord, WriteWord)
        } else {
            (ReadByte, WriteByte)
        };
        for form in FORMS {
            for other in FORMS {
                let mut case = Case::new(code << 12);
                let source = case.operand(form, 1, SOURCE, 1);
                case.touch(read, source);
                let destination = case.operand(other, 2, DESTINATION, 64);
                if code / 2 != 6 {
                    case.touch(read, destination); // not MOV
                }
                if code / 2 != 4 {
                    case.touch(write, destination); // not C
                }
                case.check();
            }
        }
    }
}

#[test]
fn single_operands_in_all_forms() {
    // B, CLR, NEG, INV, INC, INCT, DEC, DECT, BL, SWPB, SETO
    let reading = [0x14, 0x15, 0x16, 0x17, 0x18, 0x19, 0x1B];
    for code in [0x11, 0x13, 0x14, 0x15, 0x16, 0x17, 0x18, 0x19, 0x1A, 0x1B, 0x1C] {
        for form in FORMS {
            let mut case = Case::new(code << 6);
            let address = case.operand(form, 1, SOURCE, 1);
            if reading.contains(&code) {
                case.touch(ReadWord, address);
            }
            match code {
                0x11 => {}
                0x1A => case.touch(WriteWord, r(11)),
                _ => case.touch(WriteWord, address),
            }
            case.check();
        }
    }
    // ABS stores a negative operand's only.
    for (value, negative) in [
        (0, false),
        (1, false),
        (0x7FFF, false),
        (0x8000, true),
        (0xFFFF, true),
    ] {
        for form in FORMS {
            let mut case = Case::new(0x0740);
            let address = case.operand(form, 1, SOURCE, 1);
            case.put(address, value);
            case.touch(ReadWord, address);
            if negative {
                case.touch(WriteWord, address);
            }
            case.check();
        }
    }
    // BLWP reads a vector there, XOP nothing.
    for form in FORMS {
        let mut case = Case::new(0x0400);
        let address = case.operand(form, 1, SOURCE, 1);
        case.put(address, 0x0501);
        case.touch(ReadWord, address);
        case.touch(ReadWord, address + 2);
        // In form 0 the vector is R1 and R2.
        case.touched.extend(saved(0x0500));
        case.check();
        for n in 0..16 {
            let mut case = Case::new(0x2C00 + 64 * n);
            case.operand(form, 1, SOURCE, 1);
            case.put(0x40 + 4 * n, 0x0500);
            case.touch(ReadWord, 0x40 + 4 * n);
            case.touch(ReadWord, 0x42 + 4 * n);
            case.touched.extend(saved(0x0500));
            case.touch(WriteWord, 0x0500 + 22);
            case.check();
        }
    }
}

#[test]
fn source_and_register_in_all_forms() {
    // COC, CZC, XOR, MPY, DIV that overflows
    for (code, stores) in [(8, 0), (9, 0), (10, 1), (14, 2), (15, 0)] {
        for form in FORMS {
            let mut case = Case::new(code << 10 | 2 << 6);
            let source = case.operand(form, 1, SOURCE, 1);
            case.touch(ReadWord, source);
            case.touch(ReadWord, r(2));
            if code == 15 {
                case.put(source, 7);
                case.put(r(2), 7);
            }
            for i in 0..stores {
                case.touch(WriteWord, r(2 + i));
            }
            case.check();
        }
    }
}

#[test]
fn x_in_all_forms() {
    for form in FORMS {
        // What it leads to is touched after it: MOV @>0600,@>0700.
        let mut case = Case::new(0x0480);
        let address = case.operand(form, 1, SOURCE, 1);
        case.put(address, 0xC820);
        case.touch(ReadWord, address);
        case.further(0x0600);
        case.touch(ReadWord, 0x0600);
        case.further(0x0700);
        case.touch(WriteWord, 0x0700);
        case.check();
        // An unassigned word touches nothing.
        let mut case = Case::new(0x0480);
        let address = case.operand(form, 1, SOURCE, 1);
        case.touch(ReadWord, address);
        case.check();
    }
}

// ---- CRU ----

#[test]
fn cru_bits() {
    let fetch = (Fetch, PC);
    let r12 = (ReadWord, r(12));
    for (code, access) in [(0x1D00, WriteCru), (0x1E00, WriteCru), (0x1F00, ReadCru)] {
        for (displacement, base, bit) in [(0, 40, 40), (127, 40, 167), (0xFF, 0, 2047), (1, 2047, 0)] {
            let word = code + displacement;
            assert_eq!(
                touched(&[word], &[(r(12), 2 * base)]),
                [fetch, r12, (access, bit)]
            );
        }
    }
}

#[test]
fn cru_transfers_in_all_forms() {
    for coded in 0..16 {
        let count = if coded == 0 { 16 } else { coded };
        let (read, write) = if count <= 8 {
            (ReadByte, WriteByte)
        } else {
            (ReadWord, WriteWord)
        };
        for form in FORMS {
            // LDCR: the bits come last.
            let mut case = Case::new(0x3000 | coded << 6);
            case.put(r(12), 2 * 2040);
            let address = case.operand(form, 1, SOURCE, 1);
            case.touch(read, address);
            case.touch(ReadWord, r(12));
            for i in 0..count {
                case.touch(WriteCru, (2040 + i) % 2048);
            }
            case.check();
            // STCR: the bits, then the store; the operand is not read.
            let mut case = Case::new(0x3400 | coded << 6);
            case.put(r(12), 2 * 2040);
            let address = case.operand(form, 1, SOURCE, 1);
            case.touch(ReadWord, r(12));
            for i in 0..count {
                case.touch(ReadCru, (2040 + i) % 2048);
            }
            case.touch(write, address);
            case.check();
        }
    }
}

// ---- entries by the pins, idling ----

/// A record with one INT pin low.
fn low(n: u32) -> u32 {
    QUIET & !(1 << (n - 1))
}

#[test]
fn entries_by_the_pins() {
    // Each with the vector's address. The word at the PC is not touched.
    let entries = [
        (8, Step::Reset, 0),
        (1, Step::Reset, 0),
        (2, Step::Load, 0x3FFC),
        (3, Step::Level(1), 4),
        (4, Step::Level(2), 8),
        (5, Step::Level(3), 12),
        (6, Step::Level(4), 16),
    ];
    for (request, step, vector) in entries {
        for flags in [0, FLAG_IDLE] {
            let psi = Psi {
                control_and_masks: 1 << request,
                ..Psi::BLANK
            };
            let state = State {
                st: 4,
                flags,
                psi,
                ..START
            };
            let mut expected = vec![(ReadWord, vector), (ReadWord, vector + 2)];
            expected.extend(saved(0x0500));
            assert_eq!(
                stepped(state, low(request), &[0x0201, 5], &[(vector, 0x0501)]),
                (step, expected)
            );
        }
    }
}

#[test]
fn requests_that_are_not_entered() {
    let psi = Psi {
        control_and_masks: 0xFFFE,
        ..Psi::BLANK
    };
    // A level above the mask, or no sampling: the instruction alone.
    for (st, flags, request) in [(3, 0, 6), (4, FLAG_NO_SAMPLE, 6), (4, FLAG_NO_SAMPLE, 2)] {
        let state = State {
            st,
            flags,
            psi,
            ..START
        };
        assert_eq!(
            stepped(state, low(request), &[0x0441], &[]),
            (Step::Instruction, vec![(Fetch, PC)])
        );
    }
    // An idle step touches nothing.
    let state = State {
        flags: FLAG_IDLE,
        psi,
        ..START
    };
    for record in [QUIET, low(6)] {
        assert_eq!(stepped(state, record, &[0x0441], &[]), (Step::Idle, Vec::new()));
    }
}

#[test]
fn power_up_is_the_reset_entry() {
    let mut memory: Box<Memory> = Box::new([0; MEMORY_SIZE]);
    memory[..2].copy_from_slice(&[0x05, 0x01]);
    let mut machine = Machine::new(&mut memory, State::BLANK);
    machine.reset();
    let mut expected = vec![(ReadWord, 0), (ReadWord, 2)];
    expected.extend(saved(0x0500));
    assert_eq!(machine.bus.touched, expected);
}
