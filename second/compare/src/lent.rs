//! A buffer to lend, with bytes before and behind it that nobody may touch.

use tables::random::Random;

const BEHIND: usize = 32;

pub struct Lent {
    bytes: Vec<u8>,
    from: usize,
    pub before: Vec<u8>,
}

/// Differs from place to place, so that a copied or shifted guard shows too.
fn guard(place: usize) -> u8 {
    (place as u8).wrapping_mul(37) ^ 0xa5
}

impl Lent {
    pub fn new(random: &mut Random, content: &[u8]) -> Lent {
        // Any alignment.
        let from = 16 + random.below(16);
        let behind = (0..BEHIND).map(guard);
        let bytes = (0..from).map(guard).chain(content.iter().copied()).chain(behind).collect();
        Lent { bytes, from, before: content.to_vec() }
    }

    pub fn content(&mut self) -> &mut [u8] {
        &mut self.bytes[self.from..self.from + self.before.len()]
    }

    pub fn guards_stand(&self) -> bool {
        let stands = |bytes: &[u8]| bytes.iter().enumerate().all(|(i, byte)| *byte == guard(i));
        stands(&self.bytes[..self.from]) && stands(&self.bytes[self.from + self.before.len()..])
    }
}
