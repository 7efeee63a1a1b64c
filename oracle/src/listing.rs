//! One line of text for the instruction at an address.

use std::fmt::Write;

use crate::bus::MEMORY_SIZE;
use crate::state::Answer;

/// The least length of the text's buffer; no line is longer.
pub const TEXT_SIZE: usize = 48;

/// What the listing answers; on a refusal length and words are 0.
#[derive(Clone, Copy, Debug, PartialEq, Eq)]
pub struct Listed {
    /// 0 if accepted, else the refusal's number.
    pub number: u16,
    /// Bytes of the line.
    pub length: usize,
    /// Words that the machine would fetch; of X its own alone.
    pub words: u16,
}

impl Listed {
    fn refused(number: u16) -> Listed {
        Listed {
            number,
            length: 0,
            words: 0,
        }
    }
}

/// How an operation's operands are coded and written.
#[derive(Clone, Copy)]
enum Form {
    /// No instruction.
    Data,
    /// A register and a further word.
    RegisterImmediate,
    /// A further word alone.
    Immediate,
    /// A register alone.
    Register,
    /// Nothing.
    Control,
    /// A general operand.
    Single,
    /// A register and a count.
    Shift,
    Jump,
    CruBit,
    /// A general operand and a register.
    SourceRegister,
    /// A general operand and a number.
    SourceNumber,
    /// Two general operands.
    SourceDestination,
}
use Form::*;

/// An operation's words begin with the number here, and end before the next one.
const OPERATIONS: [(u16, &str, Form); 73] = [
    (0x0000, "DATA", Data),
    (0x0200, "LI", RegisterImmediate),
    (0x0220, "AI", RegisterImmediate),
    (0x0240, "ANDI", RegisterImmediate),
    (0x0260, "ORI", RegisterImmediate),
    (0x0280, "CI", RegisterImmediate),
    (0x02A0, "STWP", Register),
    (0x02C0, "STST", Register),
    (0x02E0, "LWPI", Immediate),
    (0x0300, "LIMI", Immediate),
    (0x0320, "DATA", Data),
    (0x0340, "IDLE", Control),
    (0x0360, "RSET", Control),
    (0x0380, "RTWP", Control),
    (0x03A0, "CKON", Control),
    (0x03C0, "CKOF", Control),
    (0x03E0, "LREX", Control),
    (0x0400, "BLWP", Single),
    (0x0440, "B", Single),
    (0x0480, "X", Single),
    (0x04C0, "CLR", Single),
    (0x0500, "NEG", Single),
    (0x0540, "INV", Single),
    (0x0580, "INC", Single),
    (0x05C0, "INCT", Single),
    (0x0600, "DEC", Single),
    (0x0640, "DECT", Single),
    (0x0680, "BL", Single),
    (0x06C0, "SWPB", Single),
    (0x0700, "SETO", Single),
    (0x0740, "ABS", Single),
    (0x0780, "DATA", Data),
    (0x0800, "SRA", Shift),
    (0x0900, "SRL", Shift),
    (0x0A00, "SLA", Shift),
    (0x0B00, "SRC", Shift),
    (0x0C00, "DATA", Data),
    (0x1000, "JMP", Jump),
    (0x1100, "JLT", Jump),
    (0x1200, "JLE", Jump),
    (0x1300, "JEQ", Jump),
    (0x1400, "JHE", Jump),
    (0x1500, "JGT", Jump),
    (0x1600, "JNE", Jump),
    (0x1700, "JNC", Jump),
    (0x1800, "JOC", Jump),
    (0x1900, "JNO", Jump),
    (0x1A00, "JL", Jump),
    (0x1B00, "JH", Jump),
    (0x1C00, "JOP", Jump),
    (0x1D00, "SBO", CruBit),
    (0x1E00, "SBZ", CruBit),
    (0x1F00, "TB", CruBit),
    (0x2000, "COC", SourceRegister),
    (0x2400, "CZC", SourceRegister),
    (0x2800, "XOR", SourceRegister),
    (0x2C00, "XOP", SourceNumber),
    (0x3000, "LDCR", SourceNumber),
    (0x3400, "STCR", SourceNumber),
    (0x3800, "MPY", SourceRegister),
    (0x3C00, "DIV", SourceRegister),
    (0x4000, "SZC", SourceDestination),
    (0x5000, "SZCB", SourceDestination),
    (0x6000, "S", SourceDestination),
    (0x7000, "SB", SourceDestination),
    (0x8000, "C", SourceDestination),
    (0x9000, "CB", SourceDestination),
    (0xA000, "A", SourceDestination),
    (0xB000, "AB", SourceDestination),
    (0xC000, "MOV", SourceDestination),
    (0xD000, "MOVB", SourceDestination),
    (0xE000, "SOC", SourceDestination),
    (0xF000, "SOCB", SourceDestination),
];

/// The mnemonic and the form of a first word.
fn operation(word: u16) -> (&'static str, Form) {
    let after = OPERATIONS.partition_point(|&(first, ..)| first <= word);
    let (_, mnemonic, form) = OPERATIONS[after - 1];
    (mnemonic, form)
}

/// An instruction's words, read from memory one after another.
struct Words<'m> {
    memory: &'m [u8],
    next: u16,
    read: Vec<u16>,
}

impl Words<'_> {
    fn read(&mut self) -> u16 {
        let place = usize::from(self.next) % MEMORY_SIZE;
        let word = u16::from_be_bytes([self.memory[place], self.memory[place + 1]]);
        self.next = self.next.wrapping_add(2);
        self.read.push(word);
        word
    }

    /// The general operand whose mode and register are the six low bits of
    /// `field`.
    fn operand(&mut self, field: u16) -> String {
        let n = field & 15;
        match field >> 4 & 3 {
            0 => format!("R{n}"),
            1 => format!("*R{n}"),
            2 if n == 0 => format!("@>{:04X}", self.read()),
            2 => format!("@>{:04X}(R{n})", self.read()),
            _ => format!("*R{n}+"),
        }
    }

    /// The operands of a first word that was just read.
    fn operands(&mut self, word: u16, form: Form) -> String {
        let low = word & 15;
        let middle = word >> 6 & 15;
        let signed = word as u8 as i8;
        match form {
            Data => format!(">{word:04X}"),
            RegisterImmediate => format!("R{low},>{:04X}", self.read()),
            Immediate => format!(">{:04X}", self.read()),
            Register => format!("R{low}"),
            Control => String::new(),
            Single => self.operand(word),
            Shift => format!("R{low},{}", word >> 4 & 15),
            Jump => format!(">{:04X}", self.next.wrapping_add_signed(2 * i16::from(signed))),
            CruBit => format!("{signed}"),
            SourceRegister => format!("{},R{middle}", self.operand(word)),
            SourceNumber => format!("{},{middle}", self.operand(word)),
            SourceDestination => {
                // the source's further word comes first
                let source = self.operand(word);
                let destination = self.operand(word >> 6);
                format!("{source},{destination}")
            }
        }
    }
}

/// Writes the line for the instruction at `address` to the start of `text`; the
/// rest of it stays.
pub fn list(memory: &[u8], address: u16, text: &mut [u8]) -> Listed {
    if memory.len() != MEMORY_SIZE {
        return Listed::refused(Answer::MEMORY_SIZE_WRONG);
    }
    if text.len() < TEXT_SIZE {
        return Listed::refused(Answer::TEXT_TOO_SHORT);
    }

    let address = address & !1;
    let mut words = Words {
        memory,
        next: address,
        read: Vec::new(),
    };
    let first = words.read();
    let (mnemonic, form) = operation(first);
    let operands = words.operands(first, form);

    let mut line = format!("{address:04X}");
    for word in &words.read {
        let _ = write!(line, " {word:04X}");
    }
    for field in [mnemonic, &operands] {
        if !field.is_empty() {
            let _ = write!(line, " {field}");
        }
    }
    text[..line.len()].copy_from_slice(line.as_bytes());
    Listed {
        number: Answer::ACCEPTED,
        length: line.len(),
        words: words.read.len() as u16,
    }
}

#[cfg(test)]
mod fetch_tests;
