//! The TMS 9980A: the 69 instructions, the entries, and one step.

use crate::bus::{Bus, Memory};
use crate::psi::{CruBit, Pins};
use crate::state::{State, FLAG_IDLE, FLAG_NO_SAMPLE};

/// Weights of the status register.
pub mod status {
    pub const LOGICAL_GREATER: u16 = 0x8000;
    pub const ARITHMETIC_GREATER: u16 = 0x4000;
    pub const EQUAL: u16 = 0x2000;
    pub const CARRY: u16 = 0x1000;
    pub const OVERFLOW: u16 = 0x0800;
    pub const ODD_PARITY: u16 = 0x0400;
    pub const EXTENDED: u16 = 0x0200;
    pub const MASK: u16 = 0x000F;
}
use status::*;

/// What a step was.
#[derive(Clone, Copy, Debug, PartialEq, Eq)]
pub enum Step {
    /// No step was done. Only a call answers this.
    Nothing,
    Reset,
    Load,
    /// An interrupt level, 1 to 4.
    Level(u16),
    Instruction,
    Idle,
    /// An instruction word, fetched or reached through X, that is unassigned,
    /// with the PC before the step.
    Unassigned(u16),
}

impl Step {
    /// The kind's number.
    pub fn kind(self) -> u16 {
        match self {
            Step::Nothing => 0,
            Step::Reset => 1,
            Step::Load => 2,
            Step::Level(_) => 3,
            Step::Instruction => 4,
            Step::Idle => 5,
            Step::Unassigned(_) => 6,
        }
    }

    /// The number that goes with the kind: a level or a PC, else 0.
    pub fn number(self) -> u16 {
        match self {
            Step::Level(number) | Step::Unassigned(number) => number,
            _ => 0,
        }
    }

    /// The word for it in the program's line.
    pub fn name(self) -> String {
        match self {
            Step::Nothing => "none".into(),
            Step::Reset => "reset".into(),
            Step::Load => "load".into(),
            Step::Level(level) => format!("level{level}"),
            Step::Instruction => "run".into(),
            Step::Idle => "idle".into(),
            Step::Unassigned(_) => "word".into(),
        }
    }

    pub fn is_unassigned(self) -> bool {
        matches!(self, Step::Unassigned(_))
    }
}

/// How many X one step executes; the next one is read as an unassigned word.
pub const X_ALLOWANCE: u32 = 8;

const RESET_VECTOR: u16 = 0x0000;
const LOAD_VECTOR: u16 = 0x3FFC;
const XOP_VECTORS: u16 = 0x0040;

#[derive(Clone, Copy, PartialEq, Eq)]
enum Width {
    Byte,
    Word,
}

impl Width {
    fn bytes(self) -> u16 {
        match self {
            Width::Byte => 1,
            Width::Word => 2,
        }
    }

    fn sign(self) -> u16 {
        match self {
            Width::Byte => 0x80,
            Width::Word => 0x8000,
        }
    }

    /// The largest number of this width.
    fn ones(self) -> u16 {
        match self {
            Width::Byte => 0xFF,
            Width::Word => 0xFFFF,
        }
    }
}

/// Whether the instruction's word, or the last one that X led to, is assigned.
#[derive(Clone, Copy, PartialEq, Eq)]
enum Executed {
    Assigned,
    Unassigned,
}

pub struct Machine<'m> {
    pub wp: u16,
    pub pc: u16,
    pub st: u16,
    pub idle: bool,
    pub no_sample: bool,
    pub bus: Bus<'m>,
}

impl<'m> Machine<'m> {
    /// The machine of a well-formed state. No step leaves both flags set.
    pub fn new(memory: &'m mut Memory, state: State) -> Machine<'m> {
        Machine {
            wp: state.wp,
            pc: state.pc,
            st: state.st,
            idle: state.flags & FLAG_IDLE != 0,
            no_sample: state.flags & FLAG_NO_SAMPLE != 0,
            bus: Bus::new(memory, state.psi, state.read_only),
        }
    }

    pub fn state(&self) -> State {
        let mut flags = 0;
        if self.idle {
            flags |= FLAG_IDLE;
        }
        if self.no_sample {
            flags |= FLAG_NO_SAMPLE;
        }
        State {
            wp: self.wp,
            pc: self.pc,
            st: self.st,
            flags,
            psi: self.bus.psi,
            read_only: self.bus.read_only(),
        }
    }

    // ---- one step ----

    pub fn step(&mut self, record: u32) -> Step {
        let pins = Pins(record);
        self.bus.pins = pins;
        self.bus.psi.advance(pins.cycles());

        let code = self.bus.psi.request_code(pins);
        if code <= 1 {
            self.reset();
            return Step::Reset;
        }
        if !self.no_sample {
            match code {
                2 => {
                    self.load();
                    return Step::Load;
                }
                3..=6 => {
                    let level = code as u16 - 2;
                    if level <= self.st & MASK {
                        self.interrupt(level);
                        return Step::Level(level);
                    }
                }
                _ => {}
            }
        }

        if self.idle {
            return Step::Idle;
        }
        self.no_sample = false;
        let before = self.pc;
        let word = self.fetch();
        self.execute_fetched(word, before)
    }

    /// Executes a word that was fetched: the PC is already after it, and was
    /// `before` before the step.
    pub fn execute_fetched(&mut self, word: u16, before: u16) -> Step {
        match self.execute(word, X_ALLOWANCE) {
            Executed::Assigned => Step::Instruction,
            Executed::Unassigned => Step::Unassigned(before),
        }
    }

    // ---- entries ----

    /// The reset entry. Of the PSI it changes only what its accesses show: the
    /// read register.
    pub fn reset(&mut self) {
        self.enter(RESET_VECTOR);
        self.st = 0;
        self.idle = false;
    }

    fn load(&mut self) {
        self.enter(LOAD_VECTOR);
        self.set_mask(0);
        self.idle = false;
    }

    fn interrupt(&mut self, level: u16) {
        self.enter(4 * level);
        self.set_mask(level - 1);
        self.idle = false;
    }

    /// What all entries share: both vector words, then the saving.
    fn enter(&mut self, vector: u16) {
        let new_wp = self.bus.read_word(vector) & !1;
        let new_pc = self.bus.read_word(vector.wrapping_add(2)) & !1;
        let (old_wp, old_pc) = (self.wp, self.pc);
        self.wp = new_wp;
        self.pc = new_pc;
        self.set_register(13, old_wp);
        self.set_register(14, old_pc);
        self.set_register(15, self.st);
        self.no_sample = true;
    }

    // ---- registers, operands ----

    /// The word at the PC, which moves on.
    fn fetch(&mut self) -> u16 {
        let word = self.bus.fetch(self.pc);
        self.pc = self.pc.wrapping_add(2);
        word
    }

    /// The address of register n; n = 16 is the word after R15.
    fn register_address(&self, n: u16) -> u16 {
        self.wp.wrapping_add(2 * n)
    }

    fn register(&mut self, n: u16) -> u16 {
        self.bus.read_word(self.register_address(n))
    }

    fn set_register(&mut self, n: u16, value: u16) {
        self.bus.write_word(self.register_address(n), value);
    }

    /// The address of the operand whose mode and register are the six low bits
    /// of `field`. Takes the operand's further word, stores its increment.
    fn operand_address(&mut self, field: u16, width: Width) -> u16 {
        let n = field & 15;
        match field >> 4 & 3 {
            0 => self.register_address(n),
            1 => self.register(n),
            2 => {
                let index = if n == 0 { 0 } else { self.register(n) };
                self.fetch().wrapping_add(index)
            }
            _ => {
                let address = self.register(n);
                self.set_register(n, address.wrapping_add(width.bytes()));
                address
            }
        }
    }

    fn read(&mut self, address: u16, width: Width) -> u16 {
        match width {
            Width::Byte => u16::from(self.bus.read_byte(address)),
            Width::Word => self.bus.read_word(address),
        }
    }

    fn write(&mut self, address: u16, value: u16, width: Width) {
        match width {
            Width::Byte => self.bus.write_byte(address, value as u8),
            Width::Word => self.bus.write_word(address, value),
        }
    }

    // ---- status ----

    fn set_status(&mut self, weight: u16, value: bool) {
        if value {
            self.st |= weight;
        } else {
            self.st &= !weight;
        }
    }

    fn set_mask(&mut self, mask: u16) {
        self.st = self.st & !MASK | mask;
    }

    /// L>, A> and EQ from comparing the first number with the second.
    fn compare(&mut self, first: u16, second: u16, width: Width) {
        // Turning the sign bit round turns signed order into unsigned order.
        let sign = width.sign();
        self.set_status(LOGICAL_GREATER, first > second);
        self.set_status(ARITHMETIC_GREATER, first ^ sign > second ^ sign);
        self.set_status(EQUAL, first == second);
    }

    /// L>, A> and EQ of a result; OP too where it is a byte.
    fn judge(&mut self, result: u16, width: Width) {
        self.compare(result, 0, width);
        if width == Width::Byte {
            self.judge_parity(result);
        }
    }

    fn judge_parity(&mut self, byte: u16) {
        self.set_status(ODD_PARITY, byte.count_ones() % 2 != 0);
    }

    /// a + b, with all its status bits.
    fn add(&mut self, a: u16, b: u16, width: Width) -> u16 {
        let sum = u32::from(a) + u32::from(b);
        let result = sum as u16 & width.ones();
        self.set_status(CARRY, sum > u32::from(width.ones()));
        // Overflow: equal signs gave the other sign.
        self.set_status(OVERFLOW, (a ^ result) & (b ^ result) & width.sign() != 0);
        self.judge(result, width);
        result
    }

    /// a - b, with all its status bits; carry means no borrow.
    fn subtract(&mut self, a: u16, b: u16, width: Width) -> u16 {
        let result = a.wrapping_sub(b) & width.ones();
        self.set_status(CARRY, a >= b);
        // Overflow: signs differ, and the result has not a's sign.
        self.set_status(OVERFLOW, (a ^ b) & (a ^ result) & width.sign() != 0);
        self.judge(result, width);
        result
    }

    // ---- instructions ----

    /// Executes a word; the PC is already after it, or after X's own words.
    fn execute(&mut self, word: u16, x_allowance: u32) -> Executed {
        match word >> 8 {
            0x02..=0x03 => return self.immediate_or_control(word),
            0x04..=0x07 => return self.single_operand(word, x_allowance),
            0x08..=0x0B => self.shift(word),
            0x10..=0x1C => self.jump(word),
            0x1D..=0x1F => self.single_cru_bit(word),
            0x20..=0x23 => self.compare_ones(word),
            0x24..=0x27 => self.compare_zeros(word),
            0x28..=0x2B => self.exclusive_or(word),
            0x2C..=0x2F => self.extended_operation(word),
            0x30..=0x33 => self.load_cru(word),
            0x34..=0x37 => self.store_cru(word),
            0x38..=0x3B => self.multiply(word),
            0x3C..=0x3F => self.divide(word),
            0x40..=0xFF => self.two_operands(word),
            // 0000 to 01FF, 0C00 to 0FFF
            _ => return Executed::Unassigned,
        }
        Executed::Assigned
    }

    /// SZC, S, C, A, MOV, SOC and their byte forms.
    fn two_operands(&mut self, word: u16) {
        let width = if word & 0x1000 == 0 {
            Width::Word
        } else {
            Width::Byte
        };
        let source_address = self.operand_address(word, width);
        let source = self.read(source_address, width);
        let address = self.operand_address(word >> 6, width);
        let result = match word >> 13 {
            2 => {
                let result = self.read(address, width) & !source;
                self.judge(result, width);
                result
            }
            3 => {
                let destination = self.read(address, width);
                self.subtract(destination, source, width)
            }
            4 => {
                let destination = self.read(address, width);
                self.compare(source, destination, width);
                if width == Width::Byte {
                    self.judge_parity(source);
                }
                return;
            }
            5 => {
                let destination = self.read(address, width);
                self.add(destination, source, width)
            }
            6 => {
                self.judge(source, width);
                source
            }
            _ => {
                let result = self.read(address, width) | source;
                self.judge(result, width);
                result
            }
        };
        self.write(address, result, width);
    }

    /// The source value and the destination register of COC, CZC, XOR, MPY, DIV.
    fn source_and_register(&mut self, word: u16) -> (u16, u16) {
        let address = self.operand_address(word, Width::Word);
        let source = self.bus.read_word(address);
        (source, word >> 6 & 15)
    }

    fn compare_ones(&mut self, word: u16) {
        let (source, d) = self.source_and_register(word);
        let destination = self.register(d);
        self.set_status(EQUAL, source & !destination == 0);
    }

    fn compare_zeros(&mut self, word: u16) {
        let (source, d) = self.source_and_register(word);
        let destination = self.register(d);
        self.set_status(EQUAL, source & destination == 0);
    }

    fn exclusive_or(&mut self, word: u16) {
        let (source, d) = self.source_and_register(word);
        let result = self.register(d) ^ source;
        self.judge(result, Width::Word);
        self.set_register(d, result);
    }

    fn multiply(&mut self, word: u16) {
        let (source, d) = self.source_and_register(word);
        let product = u32::from(self.register(d)) * u32::from(source);
        self.set_register(d, (product >> 16) as u16);
        self.set_register(d + 1, product as u16);
    }

    fn divide(&mut self, word: u16) {
        let (divisor, d) = self.source_and_register(word);
        let high = self.register(d);
        let overflow = divisor <= high;
        self.set_status(OVERFLOW, overflow);
        if overflow {
            return;
        }
        let dividend = u32::from(high) << 16 | u32::from(self.register(d + 1));
        self.set_register(d, (dividend / u32::from(divisor)) as u16);
        self.set_register(d + 1, (dividend % u32::from(divisor)) as u16);
    }

    fn extended_operation(&mut self, word: u16) {
        let address = self.operand_address(word, Width::Word);
        self.enter(XOP_VECTORS + 4 * (word >> 6 & 15));
        self.set_register(11, address);
        self.st |= EXTENDED;
    }

    /// 0400 to 07FF.
    fn single_operand(&mut self, word: u16, x_allowance: u32) -> Executed {
        match word >> 6 {
            0x12 => return self.execute_operand(word, x_allowance),
            0x1E..=0x1F => return Executed::Unassigned,
            _ => {}
        }
        let address = self.operand_address(word, Width::Word);
        match word >> 6 {
            // BLWP
            0x10 => self.enter(address),
            // B
            0x11 => self.pc = address & !1,
            // CLR
            0x13 => self.bus.write_word(address, 0),
            // NEG
            0x14 => {
                let operand = self.bus.read_word(address);
                let result = self.subtract(0, operand, Width::Word);
                self.bus.write_word(address, result);
            }
            // INV
            0x15 => {
                let result = !self.bus.read_word(address);
                self.judge(result, Width::Word);
                self.bus.write_word(address, result);
            }
            // INC, INCT, DEC, DECT
            0x16 => self.add_to_operand(address, 1),
            0x17 => self.add_to_operand(address, 2),
            0x18 => self.add_to_operand(address, 0xFFFF),
            0x19 => self.add_to_operand(address, 0xFFFE),
            // BL
            0x1A => {
                let link = self.pc;
                self.pc = address & !1;
                self.set_register(11, link);
            }
            // SWPB
            0x1B => {
                let operand = self.bus.read_word(address);
                self.bus.write_word(address, operand.swap_bytes());
            }
            // SETO
            0x1C => self.bus.write_word(address, 0xFFFF),
            // ABS
            _ => {
                let operand = self.bus.read_word(address);
                self.judge(operand, Width::Word);
                self.set_status(CARRY, false);
                self.set_status(OVERFLOW, operand == 0x8000);
                if operand & 0x8000 != 0 {
                    self.bus.write_word(address, operand.wrapping_neg());
                }
            }
        }
        Executed::Assigned
    }

    fn add_to_operand(&mut self, address: u16, addend: u16) {
        let operand = self.bus.read_word(address);
        let result = self.add(operand, addend, Width::Word);
        self.bus.write_word(address, result);
    }

    /// X.
    fn execute_operand(&mut self, word: u16, x_allowance: u32) -> Executed {
        if x_allowance == 0 {
            return Executed::Unassigned;
        }
        let address = self.operand_address(word, Width::Word);
        let operand = self.bus.read_word(address);
        self.execute(operand, x_allowance - 1)
    }

    fn shift(&mut self, word: u16) {
        let n = word & 15;
        let value = self.register(n);
        let mut count = u32::from(word >> 4 & 15);
        if count == 0 {
            count = u32::from(self.register(0) % 16);
        }
        if count == 0 {
            count = 16;
        }
        let result;
        let last_out;
        match word >> 8 {
            // SRA
            0x08 => {
                let wide = i32::from(value as i16);
                result = (wide >> count) as u16;
                last_out = wide >> (count - 1) & 1 != 0;
            }
            // SRL
            0x09 => {
                let wide = u32::from(value);
                result = (wide >> count) as u16;
                last_out = wide >> (count - 1) & 1 != 0;
            }
            // SLA
            0x0A => {
                let wide = u32::from(value) << count;
                result = wide as u16;
                last_out = wide >> 16 & 1 != 0;
                // The sign takes the values of the top count + 1 bits in turn.
                let signs = ((u32::from(value) << 16) as i32) >> (31 - count);
                self.set_status(OVERFLOW, signs != 0 && signs != -1);
            }
            // SRC
            _ => {
                result = value.rotate_right(count);
                last_out = value >> (count - 1) & 1 != 0;
            }
        }
        self.set_status(CARRY, last_out);
        self.judge(result, Width::Word);
        self.set_register(n, result);
    }

    fn jump(&mut self, word: u16) {
        let st = self.st;
        let logical = st & LOGICAL_GREATER != 0;
        let arithmetic = st & ARITHMETIC_GREATER != 0;
        let equal = st & EQUAL != 0;
        let taken = match word >> 8 {
            // JMP, JLT, JLE, JEQ
            0x10 => true,
            0x11 => !arithmetic && !equal,
            0x12 => !logical || equal,
            0x13 => equal,
            // JHE, JGT, JNE, JNC
            0x14 => logical || equal,
            0x15 => arithmetic,
            0x16 => !equal,
            0x17 => st & CARRY == 0,
            // JOC, JNO, JL, JH
            0x18 => st & CARRY != 0,
            0x19 => st & OVERFLOW == 0,
            0x1A => !logical && !equal,
            0x1B => logical && !equal,
            // JOP
            _ => st & ODD_PARITY != 0,
        };
        if taken {
            self.pc = self.pc.wrapping_add((2 * displacement(word)) as u16);
        }
    }

    /// SBO, SBZ, TB.
    fn single_cru_bit(&mut self, word: u16) {
        let bit = self.cru_base().plus(displacement(word));
        match word >> 8 {
            0x1D => self.bus.write_cru(bit, true),
            0x1E => self.bus.write_cru(bit, false),
            _ => {
                let value = self.bus.read_cru(bit);
                self.set_status(EQUAL, value);
            }
        }
    }

    fn cru_base(&mut self) -> CruBit {
        CruBit::from_r12(self.register(12))
    }

    fn load_cru(&mut self, word: u16) {
        let (count, width) = cru_count(word);
        let address = self.operand_address(word, width);
        let operand = self.read(address, width);
        let base = self.cru_base();
        for i in 0..count {
            self.bus.write_cru(base.plus(i), operand >> i & 1 != 0);
        }
        self.judge(operand, width);
    }

    fn store_cru(&mut self, word: u16) {
        let (count, width) = cru_count(word);
        let address = self.operand_address(word, width);
        let base = self.cru_base();
        let mut result = 0;
        for i in 0..count {
            result |= u16::from(self.bus.read_cru(base.plus(i))) << i;
        }
        self.judge(result, width);
        self.write(address, result, width);
    }

    /// 0200 to 03FF.
    fn immediate_or_control(&mut self, word: u16) -> Executed {
        let n = word & 15;
        match word >> 5 {
            // LI
            0x10 => {
                let immediate = self.fetch();
                self.judge(immediate, Width::Word);
                self.set_register(n, immediate);
            }
            // AI
            0x11 => {
                let value = self.register(n);
                let immediate = self.fetch();
                let result = self.add(value, immediate, Width::Word);
                self.set_register(n, result);
            }
            // ANDI
            0x12 => {
                let result = self.register(n) & self.fetch();
                self.judge(result, Width::Word);
                self.set_register(n, result);
            }
            // ORI
            0x13 => {
                let result = self.register(n) | self.fetch();
                self.judge(result, Width::Word);
                self.set_register(n, result);
            }
            // CI
            0x14 => {
                let value = self.register(n);
                let immediate = self.fetch();
                self.compare(value, immediate, Width::Word);
            }
            // STWP
            0x15 => self.set_register(n, self.wp),
            // STST
            0x16 => self.set_register(n, self.st),
            // LWPI
            0x17 => self.wp = self.fetch() & !1,
            // LIMI
            0x18 => {
                let immediate = self.fetch();
                self.set_mask(immediate & MASK);
            }
            // IDLE
            0x1A => self.idle = true,
            // RSET
            0x1B => self.set_mask(0),
            // RTWP
            0x1C => {
                let wp = self.register(13);
                let pc = self.register(14);
                let st = self.register(15);
                self.wp = wp & !1;
                self.pc = pc & !1;
                self.st = st;
            }
            // CKON, CKOF, LREX
            0x1D..=0x1F => {}
            // 0320 to 033F
            _ => return Executed::Unassigned,
        }
        Executed::Assigned
    }
}

/// The signed displacement of jumps and of single CRU bits.
fn displacement(word: u16) -> i16 {
    i16::from(word as u8 as i8)
}

/// How many bits LDCR or STCR moves, and the width of its operand.
fn cru_count(word: u16) -> (i16, Width) {
    match word >> 6 & 15 {
        0 => (16, Width::Word),
        count @ 1..=8 => (count as i16, Width::Byte),
        count => (count as i16, Width::Word),
    }
}

#[cfg(test)]
mod access_tests;
