//! Numbers from a seed: the same small generator that the test programs in
//! Rattle have, so that both sides make the same inputs.

/// A linear congruential generator over 32 bits; only the high half is used.
#[derive(Clone, Copy, Debug)]
pub struct Seeds(pub u32);

impl Seeds {
    /// The next 16-bit number.
    pub fn word(&mut self) -> u16 {
        self.0 = self.0.wrapping_mul(1_664_525).wrapping_add(1_013_904_223);
        (self.0 >> 16) as u16
    }

    /// A number below `limit`, which is not 0.
    pub fn below(&mut self, limit: u16) -> u16 {
        self.word() % limit
    }

    /// True once in `n` times.
    pub fn once_in(&mut self, n: u16) -> bool {
        self.below(n) == 0
    }
}
