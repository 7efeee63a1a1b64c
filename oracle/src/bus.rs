//! The processor's bus: the lent memory and the PSI. Every access of the
//! processor to memory or CRU is one call of a function here.

use crate::psi::{CruBit, Pins, Psi};

/// Bytes of memory.
pub const MEMORY_SIZE: usize = 16384;

pub type Memory = [u8; MEMORY_SIZE];

/// How the processor touches a memory address or a CRU bit.
#[derive(Clone, Copy, Debug, PartialEq, Eq)]
pub enum Access {
    /// An instruction word or a further word of it, at the PC.
    Fetch,
    /// A register, an operand or a vector word.
    ReadWord,
    ReadByte,
    WriteWord,
    WriteByte,
    ReadCru,
    WriteCru,
}

pub struct Bus<'m> {
    memory: &'m mut Memory,
    /// The first place that keeps what it has; even.
    read_only: u32,
    pub psi: Psi,
    /// The current step's pin record.
    pub pins: Pins,
    /// What was touched, in order: addresses, and the numbers of CRU bits.
    #[cfg(test)]
    pub touched: Vec<(Access, u16)>,
}

impl<'m> Bus<'m> {
    pub fn new(memory: &'m mut Memory, psi: Psi, read_only: u32) -> Bus<'m> {
        Bus {
            memory,
            read_only,
            psi,
            pins: Pins::default(),
            #[cfg(test)]
            touched: Vec::new(),
        }
    }

    /// Every memory access comes here first, with its full 16-bit address: the
    /// PSI's input S0 sees a line of it. Of a word access the address may be odd,
    /// which that line does not tell.
    #[inline(always)]
    fn touch(&mut self, _access: Access, address: u16) {
        self.psi.see_address(address);
        #[cfg(test)]
        self.touched.push((_access, address));
    }

    /// Reads an instruction word, or a further word of it, at the PC.
    pub fn fetch(&mut self, pc: u16) -> u16 {
        self.touch(Access::Fetch, pc);
        self.word(pc)
    }

    /// Reads a register, an operand or a vector word.
    pub fn read_word(&mut self, address: u16) -> u16 {
        self.touch(Access::ReadWord, address);
        self.word(address)
    }

    pub fn read_byte(&mut self, address: u16) -> u8 {
        self.touch(Access::ReadByte, address);
        self.memory[place(address)]
    }

    pub fn write_word(&mut self, address: u16, value: u16) {
        self.touch(Access::WriteWord, address);
        if let Some(high) = self.place_to_store(address & !1) {
            let [high_byte, low_byte] = value.to_be_bytes();
            self.memory[high] = high_byte;
            self.memory[high | 1] = low_byte;
        }
    }

    pub fn write_byte(&mut self, address: u16, value: u8) {
        self.touch(Access::WriteByte, address);
        if let Some(place) = self.place_to_store(address) {
            self.memory[place] = value;
        }
    }

    /// Where a store goes, if it is not dropped. A word has both bytes on the
    /// same side of the first read-only place.
    #[inline(always)]
    fn place_to_store(&self, address: u16) -> Option<usize> {
        let place = place(address);
        if (place as u32) < self.read_only {
            Some(place)
        } else {
            None
        }
    }

    /// The first read-only place, which no step moves.
    pub fn read_only(&self) -> u32 {
        self.read_only
    }

    fn word(&self, address: u16) -> u16 {
        let high = place(address & !1);
        u16::from_be_bytes([self.memory[high], self.memory[high | 1]])
    }

    pub fn read_cru(&mut self, bit: CruBit) -> bool {
        #[cfg(test)]
        self.touched.push((Access::ReadCru, bit.number()));
        self.psi.read_bit(bit, self.pins)
    }

    pub fn write_cru(&mut self, bit: CruBit, value: bool) {
        #[cfg(test)]
        self.touched.push((Access::WriteCru, bit.number()));
        self.psi.write_bit(bit, value);
    }
}

/// Where an address lies in the memory.
fn place(address: u16) -> usize {
    usize::from(address) % MEMORY_SIZE
}
