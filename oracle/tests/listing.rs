//! The listing: every operation and form, wraps, refusals, what stays.
mod common;
use common::*;
use oracle::{list, Listed, MEMORY_SIZE};

/// What stands in the buffer before.
const OLD: u8 = 0xA5;

fn refused(number: u16) -> Listed {
    Listed {
        number,
        length: 0,
        words: 0,
    }
}

/// Lists at an address into a buffer of some length; the bytes after the line
/// must stay.
fn list_into(memory: &[u8], address: u16, size: usize) -> (String, u16) {
    let mut text = vec![OLD; size];
    let listed = list(memory, address, &mut text);
    assert_eq!(listed.number, 0);
    assert!(text[listed.length..].iter().all(|&byte| byte == OLD));
    (
        String::from_utf8(text[..listed.length].to_vec()).unwrap(),
        listed.words,
    )
}

/// The words of a line's front are put at its address; it must come back, and
/// so must their number. All other words are EEEEh.
fn check(line: &str) {
    let mut bench = Bench::new();
    bench.memory.fill(0xEE);
    let hexadecimal = |field: &str| u16::from_str_radix(field, 16).unwrap();
    let is_word = |field: &&str| field.len() == 4 && field.chars().all(|c| "0123456789ABCDEF".contains(c));
    let mut fields = line.split(' ');
    let address = hexadecimal(fields.next().unwrap());
    let words: Vec<u16> = fields.take_while(is_word).map(hexadecimal).collect();
    for (i, &word) in words.iter().enumerate() {
        bench.put(address.wrapping_add(2 * i as u16), word);
    }
    for size in [48, 49, 100] {
        let expected = (line.to_string(), words.len() as u16);
        assert_eq!(list_into(&bench.memory, address, size), expected);
    }
}

fn check_all(lines: &[&str]) {
    for line in lines {
        check(line);
    }
}

#[test]
fn the_customer_line() {
    let mut bench = Bench::with(&[0xC820, 0x0200, 0x0302]);
    let line = "0100 C820 0200 0302 MOV @>0200,@>0302";
    let mut text = [OLD; 48];
    let listed = list(&bench.memory, 0x0100, &mut text);
    let expected = Listed {
        number: 0,
        length: 37,
        words: 3,
    };
    assert_eq!(listed, expected);
    assert_eq!(&text[..37], line.as_bytes());
    assert_eq!(text[37..], [OLD; 11]);
    // From an odd address, the line is that of the even one before it.
    bench.put(0x0102, 0x0201);
    assert_eq!(
        list_into(&bench.memory, 0x0101, 48),
        ("0100 C820 0201 0302 MOV @>0201,@>0302".to_string(), 3)
    );
}

#[test]
fn examples_of_the_manual() {
    check_all(&[
        "0100 C101 MOV R1,R4",
        "0100 C501 MOV R1,*R4",
        "0100 CD01 MOV R1,*R4+",
        "0100 A284 A R4,R10",
        "0100 C801 3F00 MOV R1,@>3F00",
        "0100 C820 3F0A 3F08 MOV @>3F0A,@>3F08",
        "0100 C860 3F00 3F02 MOV @>3F00,@>3F02(R1)",
        "0100 A0A0 0100 A @>0100,R2",
        "0100 9081 CB R1,R2",
        "0100 1301 JEQ >0104",
        "0100 10FF JMP >0100",
        "0100 1D04 SBO 4",
        "0100 38C2 MPY R2,R3",
        "0100 3D60 3E00 DIV @>3E00,R5",
        "0100 22CA COC R10,R11",
        "0100 3220 3E00 LDCR @>3E00,8",
        "0100 0821 SRA R1,2",
        "0100 0B45 SRC R5,4",
        "0100 0A01 SLA R1,0",
        "0100 0452 B *R2",
        "0100 06A0 3F00 BL @>3F00",
        "0100 0420 3F00 BLWP @>3F00",
        "0100 0380 RTWP",
        "0100 0222 00FF AI R2,>00FF",
        "0100 0282 010E CI R2,>010E",
        "0100 02E0 3E00 LWPI >3E00",
        "0100 02A2 STWP R2",
        "0100 2D20 3F00 XOP @>3F00,4",
        "FE24 2F20 FF34 XOP @>FF34,12",
        "FE28 04C1 CLR R1",
        "FE2C 06C3 SWPB R3",
        "FE2E 0283 0020 CI R3,>0020",
        "FE32 1311 JEQ >FE56",
        "0210 2F41 XOP R1,13",
    ]);
}

#[test]
fn two_operands() {
    check_all(&[
        "0200 4081 SZC R1,R2",
        "0200 5081 SZCB R1,R2",
        "0200 6081 S R1,R2",
        "0200 7081 SB R1,R2",
        "0200 8081 C R1,R2",
        "0200 9081 CB R1,R2",
        "0200 A081 A R1,R2",
        "0200 B081 AB R1,R2",
        "0200 C081 MOV R1,R2",
        "0200 D081 MOVB R1,R2",
        "0200 E081 SOC R1,R2",
        "0200 F081 SOCB R1,R2",
    ]);
}

#[test]
fn all_pairs_of_modes() {
    check_all(&[
        "0200 A081 A R1,R2",
        "0200 A091 A *R1,R2",
        "0200 A0A1 BEEF A @>BEEF(R1),R2",
        "0200 A0B1 A *R1+,R2",
        "0200 A481 A R1,*R2",
        "0200 A491 A *R1,*R2",
        "0200 A4A1 BEEF A @>BEEF(R1),*R2",
        "0200 A4B1 A *R1+,*R2",
        "0200 A881 BEEF A R1,@>BEEF(R2)",
        "0200 A891 BEEF A *R1,@>BEEF(R2)",
        "0200 A8A1 BEEF 0A0B A @>BEEF(R1),@>0A0B(R2)",
        "0200 A8B1 BEEF A *R1+,@>BEEF(R2)",
        "0200 AC81 A R1,*R2+",
        "0200 AC91 A *R1,*R2+",
        "0200 ACA1 BEEF A @>BEEF(R1),*R2+",
        "0200 ACB1 A *R1+,*R2+",
    ]);
    // Register 0 is no index, but a register otherwise.
    check_all(&[
        "0200 A000 A R0,R0",
        "0200 A410 A *R0,*R0",
        "0200 A820 0000 FFFF A @>0000,@>FFFF",
        "0200 A82F 0000 FFFF A @>0000(R15),@>FFFF",
        "0200 ABE0 0000 FFFF A @>0000,@>FFFF(R15)",
        "0200 AC30 A *R0+,*R0+",
        "0200 AFFF A *R15+,*R15+",
    ]);
}

#[test]
fn operand_and_register_or_number() {
    check_all(&[
        "0200 2042 COC R2,R1",
        "0200 2442 CZC R2,R1",
        "0200 2842 XOR R2,R1",
        "0200 3842 MPY R2,R1",
        "0200 3C42 DIV R2,R1",
        "0200 23FF COC *R15+,R15",
        "0200 2410 CZC *R0,R0",
        "0200 2AEA 8000 XOR @>8000(R10),R11",
        "0200 3BE0 8000 MPY @>8000,R15",
        "0200 3FDF DIV *R15,R15",
        // The number is coded in the same place.
        "0200 2C94 XOP *R4,2",
        "0200 2C00 XOP R0,0",
        "0200 2FFF XOP *R15+,15",
        "0200 2EE1 0006 XOP @>0006(R1),11",
        "0200 3225 0200 LDCR @>0200(R5),8",
        "0200 3001 LDCR R1,0",
        "0200 33F9 LDCR *R9+,15",
        "0200 3411 STCR *R1,0",
        "0200 3660 0302 STCR @>0302,9",
        "0200 37C1 STCR R1,15",
    ]);
}

#[test]
fn one_operand() {
    check_all(&[
        "0200 0401 BLWP R1",
        "0200 0441 B R1",
        "0200 0481 X R1",
        "0200 04C1 CLR R1",
        "0200 0501 NEG R1",
        "0200 0541 INV R1",
        "0200 0581 INC R1",
        "0200 05C1 INCT R1",
        "0200 0601 DEC R1",
        "0200 0641 DECT R1",
        "0200 0681 BL R1",
        "0200 06C1 SWPB R1",
        "0200 0701 SETO R1",
        "0200 0741 ABS R1",
        "0200 041F BLWP *R15",
        "0200 053E NEG *R14+",
        "0200 05A0 00FF INC @>00FF",
        "0200 076D FF00 ABS @>FF00(R13)",
        "0200 0485 X R5",
        "0200 04A0 0204 X @>0204",
        // No other name for the return.
        "0200 045B B *R11",
    ]);
}

#[test]
fn x_counts_its_own_words() {
    // R1 holds LI R5, whose further word X would fetch after itself.
    let mut bench = Bench::with(&[0x0481, 0x1234]);
    bench.set_r(1, 0x0205);
    assert_eq!(
        list_into(&bench.memory, PC, 48),
        ("0100 0481 X R1".to_string(), 1)
    );
    // MOV @,@ two words after X.
    bench.program(&[0x04A0, 0x0104, 0xC820, 0x0200, 0x0302]);
    assert_eq!(
        list_into(&bench.memory, PC, 48),
        ("0100 04A0 0104 X @>0104".to_string(), 2)
    );
}

#[test]
fn shifts() {
    check_all(&[
        "0200 0843 SRA R3,4",
        "0200 0943 SRL R3,4",
        "0200 0A43 SLA R3,4",
        "0200 0B43 SRC R3,4",
        "0200 0800 SRA R0,0",
        "0200 090F SRL R15,0",
        "0200 0AF0 SLA R0,15",
        "0200 0BAF SRC R15,10",
    ]);
}

#[test]
fn jumps() {
    check_all(&[
        "0200 1005 JMP >020C",
        "0200 1105 JLT >020C",
        "0200 1205 JLE >020C",
        "0200 1305 JEQ >020C",
        "0200 1405 JHE >020C",
        "0200 1505 JGT >020C",
        "0200 1605 JNE >020C",
        "0200 1705 JNC >020C",
        "0200 1805 JOC >020C",
        "0200 1905 JNO >020C",
        "0200 1A05 JL >020C",
        "0200 1B05 JH >020C",
        "0200 1C05 JOP >020C",
        // No other name for the jump to the next word; the farthest ones.
        "0200 1000 JMP >0202",
        "0200 167F JNE >0300",
        "0200 1680 JNE >0102",
        "0200 10FE JMP >01FE",
    ]);
}

#[test]
fn single_cru_bits() {
    check_all(&[
        "0200 1D05 SBO 5",
        "0200 1E05 SBZ 5",
        "0200 1F05 TB 5",
        "0200 1D00 SBO 0",
        "0200 1E7F SBZ 127",
        "0200 1F80 TB -128",
        "0200 1DFF SBO -1",
        "0200 1EF6 SBZ -10",
    ]);
}

#[test]
fn immediates_and_internal_registers() {
    check_all(&[
        "0200 0201 0200 LI R1,>0200",
        "0200 0221 FFFF AI R1,>FFFF",
        "0200 0241 00AB ANDI R1,>00AB",
        "0200 0261 C000 ORI R1,>C000",
        "0200 0281 0000 CI R1,>0000",
        "0200 02A3 STWP R3",
        "0200 02C3 STST R3",
        "0200 02E0 0301 LWPI >0301",
        "0200 0300 0004 LIMI >0004",
        "0200 0300 FFFF LIMI >FFFF",
        // Weight 16 is ignored, and the low five bits where there is no register.
        "0200 021F 1234 LI R15,>1234",
        "0200 0230 1234 AI R0,>1234",
        "0200 025A 1234 ANDI R10,>1234",
        "0200 0277 1234 ORI R7,>1234",
        "0200 0292 1234 CI R2,>1234",
        "0200 02BF STWP R15",
        "0200 02DC STST R12",
        "0200 02FF 1234 LWPI >1234",
        "0200 031F 1234 LIMI >1234",
    ]);
}

#[test]
fn control() {
    check_all(&[
        "0200 0340 IDLE",
        "0200 0360 RSET",
        "0200 0380 RTWP",
        "0200 03A0 CKON",
        "0200 03C0 CKOF",
        "0200 03E0 LREX",
        "0200 035F IDLE",
        "0200 037F RSET",
        "0200 039F RTWP",
        "0200 03BF CKON",
        "0200 03DF CKOF",
        "0200 03FF LREX",
    ]);
}

#[test]
fn unassigned_words() {
    check_all(&[
        "0200 0000 DATA >0000",
        "0200 01FF DATA >01FF",
        "0200 0320 DATA >0320",
        "0200 033F DATA >033F",
        "0200 0780 DATA >0780",
        "0200 07FF DATA >07FF",
        "0200 0C00 DATA >0C00",
        "0200 0FFF DATA >0FFF",
    ]);
    // The words beside them are assigned.
    check_all(&[
        "0200 0200 0000 LI R0,>0000",
        "0200 031F 0000 LIMI >0000",
        "0200 0340 IDLE",
        "0200 077F ABS *R15+",
        "0200 0800 SRA R0,0",
        "0200 0BFF SRC R15,15",
        "0200 1000 JMP >0202",
    ]);
}

#[test]
fn wraps() {
    check_all(&[
        // The memory's end: further words lie at its start.
        "3FFC C8A1 1234 5678 MOV @>1234(R1),@>5678(R2)",
        "3FFE C8A1 1234 5678 MOV @>1234(R1),@>5678(R2)",
        "3FFE 10FF JMP >3FFE",
        "3FFE 1000 JMP >4000",
        // The last address.
        "FFFC C8A1 1234 5678 MOV @>1234(R1),@>5678(R2)",
        "FFFE C8A1 1234 5678 MOV @>1234(R1),@>5678(R2)",
        "FFFE 0205 1234 LI R5,>1234",
        "FFFE 1000 JMP >0000",
        "FFFE 107F JMP >00FE",
        "0000 1080 JMP >FF02",
        "0000 10FE JMP >FFFE",
        // Shown whole, taken modulo the memory's size.
        "8102 0420 C000 BLWP @>C000",
        "4100 1301 JEQ >4104",
    ]);
    let bench = Bench::with(&[0x0340]);
    for (address, line) in [
        (0x0101, "0100 0340 IDLE"),
        (0x4100, "4100 0340 IDLE"),
        (0x8101, "8100 0340 IDLE"),
        (0xC101, "C100 0340 IDLE"),
    ] {
        assert_eq!(list_into(&bench.memory, address, 48), (line.to_string(), 1));
    }
    // From the last odd address.
    let mut bench = Bench::new();
    bench.put(0xFFFE, 0x0300);
    bench.put(0x0000, 0x0002);
    assert_eq!(
        list_into(&bench.memory, 0xFFFF, 48),
        ("FFFE 0300 0002 LIMI >0002".to_string(), 2)
    );
}

#[test]
fn longest_line() {
    let line = "FFFE 5BEF 1234 ABCD SZCB @>1234(R15),@>ABCD(R15)";
    assert_eq!(line.len(), 48);
    check(line);
}

#[test]
fn refusals() {
    let long = vec![0x04; MEMORY_SIZE + 2];
    for size in [0, 1, 16383, 16385, 16386] {
        for length in [0, 47, 48, 60] {
            let mut text = vec![OLD; length];
            assert_eq!(list(&long[..size], 0x0100, &mut text), refused(1));
            assert_eq!(text, vec![OLD; length]);
        }
    }
    // Refused also where the line would fit.
    let bench = Bench::with(&[0x0340]);
    for length in 0..48 {
        let mut text = vec![OLD; length];
        assert_eq!(list(&bench.memory, PC, &mut text), refused(11));
        assert_eq!(text, vec![OLD; length]);
    }
    assert_eq!(list_into(&bench.memory, PC, 48).0, "0100 0340 IDLE");
}

#[test]
fn every_first_word() {
    let mut mnemonics = std::collections::BTreeMap::new();
    let mut bench = Bench::with(&[0, 0x1234, 0xABCD]);
    for word in 0..=0xFFFF {
        bench.put(PC, word);
        let (line, words) = list_into(&bench.memory, PC, 48);
        let front = "0100 #### 1234 ABCD ".replace("####", &format!("{word:04X}"));
        let front = &front[..5 + 5 * usize::from(words)];
        let rest = line.strip_prefix(front).unwrap();
        // Mnemonic, at most one space, operands.
        let (mnemonic, operands) = rest.split_once(' ').unwrap_or((rest, "none"));
        assert!(!operands.is_empty() && !operands.contains(' '), "{line}");
        let shown = operands.matches("1234").count() + operands.matches("ABCD").count();
        assert_eq!(shown + 1, usize::from(words), "{line}");
        *mnemonics.entry(mnemonic.to_string()).or_insert(0) += 1;
    }
    assert_eq!(mnemonics.remove("DATA"), Some(0x200 + 0x20 + 0x80 + 0x400));
    assert_eq!(mnemonics.len(), 69);
    for (mnemonic, count) in [
        ("LI", 32),
        ("X", 64),
        ("SLA", 256),
        ("JMP", 256),
        ("XOP", 1024),
        ("A", 4096),
    ] {
        assert_eq!(mnemonics[mnemonic], count);
    }
}
