//! The TMS 9901: interrupt requests, ports, the interval timer, and its CRU bits.

/// One step's pin record.
#[derive(Clone, Copy, Debug, Default, PartialEq, Eq)]
pub struct Pins(pub u32);

impl Pins {
    /// φ cycles that pass before the step, 0 to 1023.
    pub fn cycles(self) -> u32 {
        self.0 >> 22
    }

    /// Recorded levels of the pins INT1 to INT15, weight 2^n for INTn.
    fn interrupts(self) -> u16 {
        (self.0 << 1) as u16
    }

    /// Recorded level of pin Pn, n from 0 to 15. P7 to P15 are INT15 to INT7.
    fn port(self, n: u32) -> bool {
        if n <= 6 {
            self.0 >> (15 + n) & 1 != 0
        } else {
            self.interrupts() >> (22 - n) & 1 != 0
        }
    }
}

/// A CRU bit number, 0 to 2047. It is not the number that R12 holds.
#[derive(Clone, Copy, Debug, PartialEq, Eq)]
pub struct CruBit(u16);

impl CruBit {
    pub const COUNT: u16 = 2048;

    pub fn from_r12(r12: u16) -> CruBit {
        CruBit(r12 / 2 % CruBit::COUNT)
    }

    /// The bit that lies `displacement` bits further, or back where negative.
    pub fn plus(self, displacement: i16) -> CruBit {
        CruBit(self.0.wrapping_add(displacement as u16) % CruBit::COUNT)
    }

    pub fn number(self) -> u16 {
        self.0
    }

    /// The address that is on the bus for it: bit numbers count by two there.
    fn address(self) -> u16 {
        2 * self.0
    }
}

/// The PSI's registers, each as the image's word.
#[derive(Clone, Copy, Debug, Default, PartialEq, Eq)]
pub struct Psi {
    /// Weight 1: the control bit; weight 2^n: mask n, for n from 1 to 15.
    pub control_and_masks: u16,
    /// Weight 2^n: port n is an output.
    pub directions: u16,
    /// Weight 2^n: what port n drives if it is an output.
    pub latches: u16,
    pub load: u16,
    pub decrementer: u16,
    pub read_register: u16,
    /// Cycles since the last tick, 0 to 63.
    pub phase: u16,
    /// 1 if the clock's request is pending.
    pub pending: u16,
}

const CONTROL: u16 = 1;

/// The address line that the input S0 hangs on. Of the PSI's own CRU bits it is
/// set for the ports, 16 to 31.
const S0: u16 = 32;

impl Psi {
    /// CRU bits the PSI has, from bit 0.
    pub const BITS: u16 = 32;
    /// The largest number that the clock's 14 bits hold.
    pub const CLOCK_MAX: u16 = 16383;
    /// φ cycles in a tick.
    pub const CYCLES_PER_TICK: u16 = 64;

    pub const BLANK: Psi = Psi {
        control_and_masks: 0,
        directions: 0,
        latches: 0,
        load: 0,
        decrementer: 0,
        read_register: 0,
        phase: 0,
        pending: 0,
    };

    pub fn is_well_formed(&self) -> bool {
        self.load <= Psi::CLOCK_MAX
            && self.decrementer <= Psi::CLOCK_MAX
            && self.read_register <= Psi::CLOCK_MAX
            && self.phase < Psi::CYCLES_PER_TICK
            && self.pending <= 1
            && self.latches & !self.directions == 0
            && (self.control() || self.read_register == self.decrementer)
    }

    /// The control bit: true is clock mode.
    pub fn control(&self) -> bool {
        self.control_and_masks & CONTROL != 0
    }

    // ---- the clock ----

    /// Lets `cycles` φ cycles pass. Any words will do, well formed or not.
    pub fn advance(&mut self, cycles: u32) {
        // The sum may need more than 32 bits.
        let total = u64::from(self.phase) + u64::from(cycles);
        let ticks = total / u64::from(Psi::CYCLES_PER_TICK);
        self.phase = (total % u64::from(Psi::CYCLES_PER_TICK)) as u16;
        for _ in 0..ticks {
            self.tick();
        }
        // Each tick does this; only the last is seen.
        if ticks != 0 && !self.control() {
            self.refresh_read_register();
        }
    }

    fn tick(&mut self) {
        if self.decrementer != 0 {
            self.decrementer -= 1;
            if self.decrementer == 0 && self.load != 0 {
                self.pending = 1;
            }
        } else if self.load != 0 {
            self.decrementer = self.load;
        } else {
            self.decrementer = Psi::CLOCK_MAX;
        }
    }

    fn refresh_read_register(&mut self) {
        self.read_register = self.decrementer;
    }

    // ---- pins and requests ----

    /// Level of pin Pn, n from 0 to 15.
    fn port_level(&self, n: u32, pins: Pins) -> bool {
        if self.directions >> n & 1 != 0 {
            self.latches >> n & 1 != 0
        } else {
            pins.port(n)
        }
    }

    /// Levels of the pins INT1 to INT15, weight 2^n for INTn.
    fn interrupt_levels(&self, pins: Pins) -> u16 {
        let outputs = at_interrupt_weights(self.directions);
        let latched = at_interrupt_weights(self.latches);
        pins.interrupts() & !outputs | latched & outputs
    }

    /// Requests that are active and whose mask bit is set, weight 2^n for request n.
    fn enabled_requests(&self, pins: Pins) -> u16 {
        let mut active = !self.interrupt_levels(pins);
        if self.load != 0 {
            put_bit(&mut active, 3, self.pending != 0);
        }
        active & self.control_and_masks & !CONTROL
    }

    /// The three-bit code that the processor samples.
    pub fn request_code(&self, pins: Pins) -> u32 {
        match self.enabled_requests(pins) {
            0 => 7,
            requests => requests.trailing_zeros() % 8,
        }
    }

    // ---- S0 ----

    /// What an access does by its address alone, be it of memory or CRU: with S0
    /// set the PSI is not in clock mode during it, and the read register takes
    /// the clock's value. Control stays as it is.
    #[inline(always)]
    pub fn see_address(&mut self, address: u16) {
        if address & S0 != 0 {
            self.refresh_read_register();
        }
    }

    // ---- CRU ----

    /// Reads a CRU bit; bits that are not the PSI's read 1.
    pub fn read_bit(&mut self, bit: CruBit, pins: Pins) -> bool {
        self.see_address(bit.address());
        let n = u32::from(bit.number());
        match n {
            0 => self.control(),
            1..=15 if !self.control() => self.interrupt_levels(pins) >> n & 1 != 0,
            1..=14 => self.read_register >> (n - 1) & 1 != 0,
            15 => self.enabled_requests(pins) != 0,
            16..=31 => self.port_level(n - 16, pins),
            _ => true,
        }
    }

    /// Writes a CRU bit; bits that are not the PSI's ignore the value.
    pub fn write_bit(&mut self, bit: CruBit, value: bool) {
        self.see_address(bit.address());
        let n = u32::from(bit.number());
        match n {
            0 => {
                put_bit(&mut self.control_and_masks, 0, value);
                if !value {
                    self.refresh_read_register();
                }
            }
            1..=15 if !self.control() => {
                put_bit(&mut self.control_and_masks, n, value);
                if n == 3 {
                    self.pending = 0;
                }
            }
            1..=14 => {
                put_bit(&mut self.load, n - 1, value);
                self.decrementer = self.load;
                self.phase = 0;
            }
            15 => {
                if !value {
                    self.directions = 0;
                    self.latches = 0;
                }
            }
            16..=31 => {
                put_bit(&mut self.latches, n - 16, value);
                put_bit(&mut self.directions, n - 16, true);
            }
            _ => {}
        }
    }
}

fn put_bit(word: &mut u16, n: u32, value: bool) {
    *word = *word & !(1 << n) | u16::from(value) << n;
}

/// Takes a word with weight 2^n for Pn, gives one with weight 2^n for INTn: P7
/// to P15 are INT15 to INT7, and the other interrupts have no port.
fn at_interrupt_weights(ports: u16) -> u16 {
    // Reversing puts Pn at weight 15 - n; it is to be at 22 - n.
    ports.reverse_bits() << 7
}
