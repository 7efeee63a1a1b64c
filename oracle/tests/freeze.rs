//! S0 sees the address line of weight 32: an access that has it set refreshes the
//! read register in clock mode.
//!
//! The bench's registers (0300h to 031Eh) and its program (0100h to 011Eh) have
//! the line low, so a test sets it for the access that it is about.
mod common;
use common::*;
use oracle::{power_up, Psi, Step, MEMORY_SIZE};

/// The read register before each step, and the decrementer.
const OLD: u16 = 0x0F0F;
const NOW: u16 = 0x2345;

/// Clock mode, with a read register that is behind the decrementer, and no field
/// 0. No enabled request is active while the pins are high: masks 12 and 13 are
/// set, INT12 is an input, INT13 (P9) an output with latch 1, and mask 3 is clear.
const CLOCK_MODE: Psi = Psi {
    control_and_masks: 0x3001,
    directions: 0x53A6,
    latches: 0x1382,
    load: 0x2AB3,
    decrementer: NOW,
    read_register: OLD,
    phase: 21,
    pending: 1,
};

/// A bench in clock mode, with a workspace and a program at a PC.
fn bench(wp: u16, pc: u16, words: &[u16]) -> Bench {
    let mut b = Bench::new();
    b.state.wp = wp;
    b.state.pc = pc;
    b.state.psi = CLOCK_MODE;
    b.program(words);
    b
}

/// Lets a request in from its pin, request 3 too: the load is 0.
fn enable(b: &mut Bench, request: u32) {
    b.state.psi.control_and_masks |= 1 << request;
    b.state.psi.load = 0;
}

/// Whether the read register was refreshed since the PSI was `before`. Nothing
/// else of the PSI may have moved.
fn refreshed_since(before: Psi, b: &Bench) -> bool {
    let reading = b.state.psi.read_register;
    let after = Psi {
        read_register: reading,
        ..before
    };
    assert_eq!(b.state.psi, after);
    assert_eq!((before.read_register, before.decrementer), (OLD, NOW));
    assert!(reading == OLD || reading == NOW);
    reading == NOW
}

/// The same of a bench whose PSI was `CLOCK_MODE`.
fn refreshed(b: &Bench) -> bool {
    refreshed_since(CLOCK_MODE, b)
}

/// Whether one quiet step refreshes it, and moves nothing else.
fn refreshes(mut b: Bench) -> bool {
    b.step();
    refreshed(&b)
}

/// The same of a step of the bench's program.
fn program_refreshes(words: &[u16]) -> bool {
    refreshes(bench(WP, PC, words))
}

fn line(address: u16) -> bool {
    address & 32 != 0
}

// ---- each kind of access ----

#[test]
fn a_fetch() {
    // An unassigned word and a jump: the fetch alone.
    for pc in (0..=0xFFFEu16).step_by(2) {
        assert_eq!(refreshes(bench(WP, pc, &[0x0000])), line(pc), "{pc:04X}");
        assert_eq!(refreshes(bench(WP, pc, &[0x1000])), line(pc), "{pc:04X}");
    }
}

#[test]
fn a_further_word() {
    // At 0120h: of LI, CI, LIMI, of a source, of a destination, and through X.
    assert!(refreshes(bench(WP, 0x011E, &[0x0201, 5])));
    assert!(refreshes(bench(WP, 0x011E, &[0x0281, 5])));
    assert!(refreshes(bench(WP, 0x011E, &[0x0300, 5])));
    assert!(refreshes(bench(WP, 0x011E, &[0xC060, 0x0400])));
    assert!(refreshes(bench(WP, 0x011C, &[0xC820, 0x0400, 0x0410])));
    assert!(!refreshes(bench(WP, 0x011A, &[0xC820, 0x0400, 0x0410])));
    let mut b = bench(WP, 0x011E, &[0x0481, 5]);
    b.set_r(1, 0x0202);
    assert!(refreshes(b));
    // X of a word without a further one: it is not fetched.
    let mut b = bench(WP, 0x011E, &[0x0481, 5]);
    b.set_r(1, 0x0582);
    assert!(!refreshes(b));
}

#[test]
fn a_register_read() {
    // CI Rn reads it; COC has it as its second operand; *Rn reads it for its address.
    for wp in (0x02C0..0x0340u16).step_by(2) {
        for n in 0..16 {
            let address = wp + 2 * n;
            assert_eq!(refreshes(bench(wp, PC, &[0x0280 + n, 0])), line(address));
            assert_eq!(
                refreshes(bench(wp, PC, &[0x2020 + 64 * n, 0x0400])),
                line(address)
            );
            // B *Rn, and B @0(Rn), which reads no register 0.
            assert_eq!(refreshes(bench(wp, PC, &[0x0450 + n])), line(address));
            assert_eq!(
                refreshes(bench(wp, PC, &[0x0460 + n, 0])),
                n != 0 && line(address)
            );
        }
    }
}

#[test]
fn an_operand_read() {
    for address in 0..=0xFFFFu16 {
        // C @,R1 and CB @,R1; C R1,@ and CB R1,@.
        assert_eq!(program_refreshes(&[0x8060, address]), line(address));
        assert_eq!(program_refreshes(&[0x9060, address]), line(address));
        assert_eq!(program_refreshes(&[0x8801, address]), line(address));
        assert_eq!(program_refreshes(&[0x9801, address]), line(address));
        // X of an unassigned word. The program is at 0100h.
        if address & 0x3FFC != PC {
            assert_eq!(program_refreshes(&[0x04A0, address]), line(address));
        }
    }
    // A word's address loses its lowest bit, which does not matter; a byte's stays.
    for (address, set) in [
        (0x041E, false),
        (0x041F, false),
        (0x0420, true),
        (0x0421, true),
        (0x043E, true),
        (0x043F, true),
        (0x0440, false),
        (0x0441, false),
        // the same place of memory, with the line high and higher addresses
        (0x441F, false),
        (0xC420, true),
        (0xFFFF, true),
        (0xFFDF, false),
    ] {
        assert_eq!(program_refreshes(&[0x8060, address]), set);
        assert_eq!(program_refreshes(&[0x9060, address]), set);
    }
}

#[test]
fn a_store() {
    for address in 0..=0xFFFFu16 {
        // CLR and SETO, MOV R1 and MOVB R1
        for words in [
            [0x04E0, address],
            [0x0720, address],
            [0xC801, address],
            [0xD801, address],
        ] {
            assert_eq!(program_refreshes(&words), line(address), "{words:04X?}");
        }
    }
    // Registers: LI, STWP, STST store without reading.
    for wp in (0x02C0..0x0340u16).step_by(2) {
        for n in 0..16 {
            for words in [[0x0200 + n, 0], [0x02A0 + n, 0], [0x02C0 + n, 0]] {
                assert_eq!(refreshes(bench(wp, PC, &words)), line(wp + 2 * n));
            }
        }
        // BL stores in R11.
        assert_eq!(refreshes(bench(wp, PC, &[0x06A0, 0x0400])), line(wp + 22));
    }
}

#[test]
fn an_increment() {
    // B *R8+ and MOVB *R8+,R0: R8 is at 0320h, or at 031Eh.
    for word in [0x0478, 0xD038] {
        for (wp, set) in [(0x0310, true), (0x030E, false)] {
            let mut b = bench(wp, PC, &[word]);
            b.set_r(8, 0x0400);
            b.step();
            assert_eq!(refreshed(&b), set);
            assert_eq!(b.r(8), if word == 0x0478 { 0x0402 } else { 0x0401 });
        }
    }
}

#[test]
fn a_vector_read() {
    // XOP n: vectors from 0060h on have the line set. The workspace is at 0400h.
    for n in 0..16 {
        let mut b = bench(WP, PC, &[0x2C01 + 64 * n]);
        b.put(0x40 + 4 * n, 0x0400);
        assert_eq!(refreshes(b), n >= 8);
    }
    // BLWP: the first word, the second, none.
    for (vector, set) in [
        (0x041C, false),
        (0x041D, false),
        (0x041E, true),
        (0x0420, true),
        (0x043C, true),
        (0x043E, true),
        (0x0440, false),
    ] {
        let mut b = bench(WP, PC, &[0x0420, vector]);
        b.put(vector, 0x0500);
        assert_eq!(refreshes(b), set, "{vector:04X}");
    }
    // LOAD's vector is at 3FFCh; those of reset and of the levels have the line low.
    for (request, vector, step) in [
        (1, 0, Step::Reset),
        (2, 0x3FFC, Step::Load),
        (3, 4, Step::Level(1)),
        (4, 8, Step::Level(2)),
        (5, 12, Step::Level(3)),
        (6, 16, Step::Level(4)),
    ] {
        let mut b = bench(WP, PC, &[]);
        b.state.st = 4;
        enable(&mut b, request);
        let before = b.state.psi;
        b.put(vector, 0x0400);
        assert_eq!(b.kind(low(&[request])), step);
        assert_eq!(refreshed_since(before, &b), vector == 0x3FFC, "{step:?}");
    }
}

#[test]
fn save_words() {
    for wp in (0x03C0..0x0440u16).step_by(2) {
        let saved = line(wp + 26) || line(wp + 28) || line(wp + 30);
        // BLWP @>0500, XOP R1,0, which stores R11 too, and level 1.
        let mut b = bench(WP, PC, &[0x0420, 0x0500]);
        b.put(0x0500, wp);
        assert_eq!(refreshes(b), saved, "{wp:04X}");
        let mut b = bench(WP, PC, &[0x2C01]);
        b.put(0x0040, wp);
        assert_eq!(refreshes(b), saved || line(wp + 22), "{wp:04X}");
        let mut b = bench(WP, PC, &[]);
        b.state.st = 1;
        enable(&mut b, 3);
        let before = b.state.psi;
        b.put(4, wp);
        assert_eq!(b.kind(low(&[3])), Step::Level(1));
        assert_eq!(refreshed_since(before, &b), saved, "{wp:04X}");
        // RTWP reads them.
        assert_eq!(refreshes(bench(wp, PC, &[0x0380])), saved, "{wp:04X}");
    }
}

#[test]
fn an_access_of_each_kind_at_other_weights() {
    // All lines but that of weight 32: nothing is seen.
    let other = !32u16;
    for weight in (0..16).map(|n| 1u16 << n).filter(|&weight| weight != 32) {
        let even = weight & !1;
        assert!(!refreshes(bench(WP, even, &[0x0000])));
        assert!(!program_refreshes(&[0x9060, weight]));
        assert!(!program_refreshes(&[0xD801, weight]));
    }
    assert!(!refreshes(bench(WP, other & !1, &[0x0000])));
    assert!(!program_refreshes(&[0x9060, other]));
    assert!(!program_refreshes(&[0xD801, other]));
    // Weight 16 as the CRU's bit numbers have it.
    assert!(!refreshes(bench(0x0310, 0x0110, &[0xC060, 0x0410])));
}

// ---- what is no access ----

#[test]
fn targets_and_addresses_alone() {
    for address in [0x0420, 0x003E, 0xFFFE, 0x0421] {
        // B, BL and XOP do not read the operand.
        let mut b = bench(WP, PC, &[0x0460, address]);
        b.step();
        assert!(!refreshed(&b));
        assert_eq!(b.state.pc, address & !1);
        b.step(); // the fetch there
        assert!(refreshed(&b));
        assert!(!program_refreshes(&[0x06A0, address]));
        let mut b = bench(WP, PC, &[0x2C20, address]);
        b.put(0x0040, 0x0400);
        b.step();
        assert!(!refreshed(&b));
        assert_eq!(b.r(11), address);
    }
    // JMP to 0120h
    let mut b = bench(WP, PC, &[0x100F]);
    b.step();
    assert!(!refreshed(&b));
    assert_eq!(b.state.pc, 0x0120);
    b.step();
    assert!(refreshed(&b));
    // LWPI of a workspace with the line set.
    assert!(!program_refreshes(&[0x02E0, 0x0320]));
    // RTWP to such a workspace and PC.
    let mut b = bench(WP, PC, &[0x0380]);
    b.set_r(13, 0x0320);
    b.set_r(14, 0x0120);
    assert!(!refreshes(b));
}

#[test]
fn an_idle_step_and_the_old_pc_of_an_entry() {
    let mut b = bench(0x0320, 0x0120, &[0x0582]);
    b.state.flags = 1;
    assert_eq!(b.kind(QUIET), Step::Idle);
    assert!(!refreshed(&b));
    // IDLE itself is fetched.
    let mut b = bench(0x0320, 0x011E, &[0x0340]);
    b.step();
    b.step();
    assert!(!refreshed(&b));
    assert_eq!((b.state.pc, b.state.flags), (0x0120, 1));
    // Level 1 from there.
    b.state.st = 1;
    enable(&mut b, 3);
    let before = b.state.psi;
    b.put(4, 0x0400);
    assert_eq!(b.kind(low(&[3])), Step::Level(1));
    assert!(!refreshed_since(before, &b));
    assert_eq!((b.r(13), b.r(14)), (0x0320, 0x0120));
}

#[test]
fn what_is_not_needed_is_not_read() {
    // R0 is at 03FEh, R1 at 0400h. A shift reads R0 with count 0 alone.
    for code in [0x0801, 0x0901, 0x0A01, 0x0B01] {
        assert!(!refreshes(bench(0x03FE, PC, &[code + 0x10])));
        assert!(refreshes(bench(0x03FE, PC, &[code])));
    }
    // An index register 0 is not read: CLR @>0410 and CLR @>0410(R1).
    assert!(!refreshes(bench(0x03FE, PC, &[0x04E0, 0x0410])));
    assert!(refreshes(bench(0x031E, PC, &[0x04E1, 0x0410])));
    // DIV R1,R2 with R3 at 0320h: the low word is read unless it overflows.
    for (divisor, high, set) in [(0, 0, false), (5, 5, false), (5, 6, false), (5, 4, true)] {
        let mut b = bench(0x031A, PC, &[0x3C81]);
        b.set_r(1, divisor);
        b.set_r(2, high);
        assert_eq!(refreshes(b), set);
    }
    // With R2 at 0320h the high word is read though the divisor is 0, and MPY's
    // second factor though the first is 0.
    assert!(refreshes(bench(0x031C, PC, &[0x3C81])));
    assert!(refreshes(bench(0x031C, PC, &[0x3881])));
    // R15's pair: the word after it is at 0320h.
    let mut b = bench(0x0300, PC, &[0x3FC1]);
    assert_eq!(b.state.wp + 32, 0x0320);
    b.set_r(1, 1);
    assert!(refreshes(b));
    assert!(!refreshes(bench(0x0300, PC, &[0x3FC1])));
    assert!(refreshes(bench(0x0300, PC, &[0x3BC1])));
    // X R0, and so on to X *R9 as the eighth or the ninth, whose operand at 0420h
    // is not read.
    for (last, set) in [(6, true), (7, false)] {
        let mut b = bench(WP, PC, &[0x0480]);
        for n in 0..last {
            b.set_r(n, 0x0480 + n + 1);
        }
        b.set_r(last, 0x0499);
        b.set_r(9, 0x0420);
        assert_eq!(refreshes(b), set, "R{last}");
    }
}

// ---- the moment ----

#[test]
fn the_clock_advances_first() {
    // 3 ticks, then the fetch.
    for (pc, reading) in [(0x0120, NOW - 3), (0x0100, OLD)] {
        let mut b = bench(WP, pc, &[0x1000]);
        b.run(&[cycles(192)]);
        let after = Psi {
            decrementer: NOW - 3,
            read_register: reading,
            ..CLOCK_MODE
        };
        assert_eq!(b.state.psi, after);
    }
}

#[test]
fn store_cru_reads_what_its_accesses_refreshed() {
    // STCR of 14 bits from bit 1.
    let stored = |wp: u16, pc: u16, words: &[u16]| {
        let mut b = bench(wp, pc, words);
        b.set_r(12, 2);
        b.set_r(15, 0x0400);
        b.set_r(14, 0x0420);
        b.step();
        b
    };
    // STCR R1,14: no access with the line set.
    let b = stored(WP, PC, &[0x3781]);
    assert_eq!((b.r(1), refreshed(&b)), (OLD, false));
    // Its fetch.
    let b = stored(WP, 0x0120, &[0x3781]);
    assert_eq!((b.r(1), refreshed(&b)), (NOW, true));
    // R12 at 0320h, R1 at 030Ah.
    let b = stored(0x0308, PC, &[0x3781]);
    assert_eq!((b.r(1), refreshed(&b)), (NOW, true));
    // Its further word at 0120h.
    let b = stored(WP, 0x011E, &[0x37A0, 0x0400]);
    assert_eq!((b.word(0x0400), refreshed(&b)), (NOW, true));
    // R15 at 0320h, which has the address, with and without increment.
    for word in [0x379F, 0x37BF] {
        let b = stored(0x0302, PC, &[word]);
        assert_eq!((b.word(0x0400), refreshed(&b)), (NOW, true));
    }
    // Its store alone is too late for what it stores, and the destination is not
    // read before: @>0420, *R14 with R14 at 031Ch, and R15 at 0320h.
    let b = stored(WP, PC, &[0x37A0, 0x0420]);
    assert_eq!((b.word(0x0420), refreshed(&b)), (OLD, true));
    let b = stored(WP, PC, &[0x379E]);
    assert_eq!((b.word(0x0420), refreshed(&b)), (OLD, true));
    let b = stored(0x0302, PC, &[0x378F]);
    assert_eq!((b.r(15), refreshed(&b)), (OLD, true));
    // A byte: the low eight bits, at an odd address.
    let b = stored(WP, PC, &[0x3620, 0x0421]);
    assert_eq!((b.byte(0x0421), refreshed(&b)), (OLD as u8, true));
}

#[test]
fn store_cru_that_passes_over_other_bits() {
    // 16 bits from bit 2040: eight ones, each of which refreshes, then control and
    // the low seven bits.
    let mut b = bench(WP, PC, &[0x3401]);
    b.set_r(12, 2 * 2040);
    b.step();
    assert_eq!((b.r(1) >> 9, refreshed(&b)), (NOW & 0x7F, true));
    // Bits 2016 to 2031: none has weight 16.
    let mut b = bench(WP, PC, &[0x3401]);
    b.set_r(12, 2 * 2016);
    b.step();
    assert_eq!((b.r(1), refreshed(&b)), (0xFFFF, false));
}

/// The PSI after its load was written, but for what was refreshed.
fn loaded(load: u16) -> Psi {
    Psi {
        load,
        decrementer: load,
        phase: 0,
        ..CLOCK_MODE
    }
}

#[test]
fn load_cru_refreshes_before_its_bits() {
    // LDCR @,14 from bit 1: the refresh takes the clock before the load.
    for (address, reading) in [(0x0420, NOW), (0x0400, OLD)] {
        let mut b = bench(WP, PC, &[0x33A0, address]);
        b.set_r(12, 2);
        b.put(address, 0x1234);
        b.step();
        let after = Psi {
            read_register: reading,
            ..loaded(0x1234)
        };
        assert_eq!(b.state.psi, after);
    }
    // By its fetch, and by R12 at 0320h.
    for (wp, pc) in [(WP, 0x0120), (0x0308, PC)] {
        let mut b = bench(wp, pc, &[0x3381]);
        b.set_r(12, 2);
        b.set_r(1, 0x1234);
        b.step();
        let after = Psi {
            read_register: NOW,
            ..loaded(0x1234)
        };
        assert_eq!(b.state.psi, after);
    }
    // 16 bits from bit 8: load bits, RST2, then P0 to P7 as 0, which refresh with
    // the new load.
    let mut b = bench(WP, 0x0120, &[0x3001]);
    b.set_r(12, 16);
    b.set_r(1, 0x00D5);
    b.step();
    let load = 0x55 << 7 | CLOCK_MODE.load & 0x7F;
    let after = Psi {
        read_register: load,
        directions: CLOCK_MODE.directions | 0xFF,
        latches: CLOCK_MODE.latches & 0xFF00,
        ..loaded(load)
    };
    assert_eq!(b.state.psi, after);
    // 16 bits from bit 2040: refreshed there, then control, and seven load bits.
    let mut b = bench(WP, PC, &[0x3001]);
    b.set_r(12, 2 * 2040);
    b.set_r(1, 0xAB00);
    b.step();
    let after = Psi {
        read_register: NOW,
        ..loaded(CLOCK_MODE.load & !0x7F | 0x55)
    };
    assert_eq!(b.state.psi, after);
}

#[test]
fn control_and_load_in_one_transfer() {
    // LDCR R1,15 from interrupt mode: control, then the load. The reading stays.
    for pc in [0x0100, 0x0120] {
        let mut b = bench(WP, pc, &[0x33C1, 0x1000]);
        b.state.psi.control_and_masks &= !1;
        b.state.psi.read_register = NOW;
        b.set_r(1, 0x01FF);
        b.step();
        let mut after = Psi {
            read_register: NOW,
            ..loaded(255)
        };
        assert_eq!(b.state.psi, after);
        // The next fetch is at 0102h or at 0122h.
        b.step();
        if pc == 0x0120 {
            after.read_register = 255;
        }
        assert_eq!(b.state.psi, after);
    }
}

// ---- CRU bits outside the PSI ----

#[test]
fn cru_bits_outside_the_psi() {
    for n in 32..2048u16 {
        let set = n & 16 != 0;
        for word in [0x1D00, 0x1E00, 0x1F00] {
            let mut b = bench(WP, PC, &[word]);
            b.set_r(12, 2 * n);
            assert_eq!(refreshes(b), set, "bit {n}");
        }
    }
    // By name: 32 to 47 do not, 48 to 63 do, 2031 does not, 2047 does.
    for (n, set) in [
        (32, false),
        (47, false),
        (48, true),
        (63, true),
        (64, false),
        (2031, false),
        (2032, true),
        (2047, true),
    ] {
        let mut b = bench(WP, PC, &[0x1F00]);
        b.set_r(12, 2 * n);
        assert_eq!(refreshes(b), set, "bit {n}");
    }
    // After the wrap: SBZ -1 from bit 0 is 2047, TB 1 from 2047 is bit 0, and TB -17
    // is 2031. R12's high weights do not count.
    assert!(program_refreshes(&[0x1EFF]));
    assert!(!program_refreshes(&[0x1FEF]));
    let mut b = bench(WP, PC, &[0x1F01]);
    b.set_r(12, 2 * 2047);
    assert!(!refreshes(b));
    let mut b = bench(WP, PC, &[0x1F00]);
    b.set_r(12, 0xF000 + 2 * 40);
    assert!(!refreshes(b));
    let mut b = bench(WP, PC, &[0x1F00]);
    b.set_r(12, 0xF000 + 2 * 50);
    assert!(refreshes(b));
}

#[test]
fn transfers_outside_the_psi() {
    // LDCR and STCR of each count from each bit: any of the bits with weight 16.
    for base in 32..112u16 {
        for count in 1..=16u16 {
            let set = (base..base + count).any(|n| n & 16 != 0);
            for code in [0x3001, 0x3401] {
                let mut b = bench(WP, PC, &[code + count % 16 * 64]);
                b.set_r(12, 2 * base);
                assert_eq!(refreshes(b), set, "{count} bits from {base}");
            }
        }
    }
}

// ---- modes ----

#[test]
fn interrupt_mode_has_nothing_to_refresh() {
    let mut b = bench(0x0320, 0x0120, &[0xC820, 0x0420, 0x0422]);
    b.state.psi.control_and_masks = 0xF000;
    b.state.psi.read_register = NOW;
    let psi = b.state.psi;
    b.step();
    assert_eq!(b.state.psi, psi);
}

#[test]
fn power_up_leaves_a_blank_psi() {
    // The new workspace has the line set for all save words.
    let mut memory = vec![0; MEMORY_SIZE];
    memory[..2].copy_from_slice(&[0x03, 0x06]);
    let answer = power_up(&mut memory);
    assert_eq!((answer.state.wp, answer.state.psi), (0x0306, Psi::BLANK));
}

#[test]
fn a_loop_freezes_the_clock_only_below_the_line() {
    // SBO 0, then LOOP: STCR R1,15; JMP LOOP, with 100 cycles a step.
    for (pc, moving) in [(0x0100, false), (0x0118, false), (0x011C, true), (0x0120, true)] {
        let mut b = bench(WP, pc, &[0x1D00, 0x37C1, 0x10FE]);
        b.state.psi.control_and_masks &= !1;
        b.state.psi.decrementer = 5000;
        b.state.psi.read_register = 5000;
        b.run(&[QUIET, QUIET]);
        assert_eq!(b.r(1), 5000 * 2 + 1);
        let mut readings = vec![];
        for _ in 0..20 {
            b.run(&[cycles(100), cycles(100)]);
            readings.push(b.r(1) / 2);
        }
        if moving {
            assert!(readings.windows(2).all(|pair| pair[1] < pair[0]), "{pc:04X}");
        } else {
            assert!(readings.iter().all(|&reading| reading == 5000), "{pc:04X}");
        }
        // 4000 cycles are 62 ticks and 32 cycles.
        let after = Psi {
            decrementer: 5000 - 62,
            read_register: readings[19],
            phase: CLOCK_MODE.phase + 32,
            ..CLOCK_MODE
        };
        assert_eq!(b.state.psi, after, "{pc:04X}");
    }
}
