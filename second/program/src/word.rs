//! Words of w bits.

#[derive(Clone, Copy, PartialEq, Eq, Debug)]
pub struct Width(u32);

impl Width {
    pub fn new(bits: u8) -> Option<Width> {
        (1..=64).contains(&bits).then_some(Width(bits as u32))
    }

    pub fn bits(self) -> u8 {
        self.0 as u8
    }

    pub fn largest(self) -> u64 {
        u64::MAX >> (64 - self.0)
    }

    /// 2^w as a whole number.
    pub fn modulus(self) -> u128 {
        1 << self.0
    }

    pub fn holds(self, value: u64) -> bool {
        value <= self.largest()
    }

    pub fn add(self, a: u64, b: u64) -> u64 {
        a.wrapping_add(b) & self.largest()
    }

    pub fn sub(self, a: u64, b: u64) -> u64 {
        a.wrapping_sub(b) & self.largest()
    }
}
