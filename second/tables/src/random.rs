//! Splitmix64: small, and the same on every machine.

use second::Width;

#[derive(Clone)]
pub struct Random(u64);

impl Random {
    pub fn new(seed: u64) -> Random {
        Random(seed)
    }

    /// An independent stream for case `number` of `seed`.
    pub fn stream(seed: u64, number: u64) -> Random {
        let mut random = Random(seed ^ number.wrapping_mul(0xd605_1c58_3f62_4a6d));
        Random(random.draw())
    }

    pub fn draw(&mut self) -> u64 {
        self.0 = self.0.wrapping_add(0x9e37_79b9_7f4a_7c15);
        let mut z = self.0;
        z = (z ^ (z >> 30)).wrapping_mul(0xbf58_476d_1ce4_e5b9);
        z = (z ^ (z >> 27)).wrapping_mul(0x94d0_49bb_1331_11eb);
        z ^ (z >> 31)
    }

    /// Below `bound`, which is not 0.
    pub fn below(&mut self, bound: usize) -> usize {
        ((self.draw() as u128 * bound as u128) >> 64) as usize
    }

    /// From `low` to `high`, both included.
    pub fn from_to(&mut self, low: u64, high: u64) -> u64 {
        let count = (high - low) as u128 + 1;
        low + ((self.draw() as u128 * count) >> 64) as u64
    }

    pub fn one_in(&mut self, bound: usize) -> bool {
        self.below(bound) == 0
    }

    pub fn pick<T: Copy>(&mut self, from: &[T]) -> T {
        from[self.below(from.len())]
    }

    pub fn bytes(&mut self, count: usize) -> Vec<u8> {
        (0..count).map(|_| self.draw() as u8).collect()
    }

    /// Every width, with the telling ones more often.
    pub fn width(&mut self) -> Width {
        let bits = match self.below(3) {
            0 => self.pick(&[1, 2, 3, 8, 16, 32, 63, 64]),
            _ => self.from_to(1, 64) as u8,
        };
        Width::new(bits).expect("1 to 64")
    }

    /// A word, with those near 0, the middle and 2^w more often.
    pub fn word(&mut self, width: Width) -> u64 {
        let small = self.from_to(0, 9);
        match self.below(8) {
            0..=2 => small & width.largest(),
            3 => width.sub(0, small),
            4 => width.sub(0, small * 4),
            5 => width.add(width.largest() / 2, small.wrapping_sub(4)),
            _ => self.from_to(0, width.largest()),
        }
    }

    /// An instruction number, the ends more often.
    pub fn source(&mut self) -> u32 {
        match self.below(12) {
            0 => 0,
            1 => u32::MAX,
            _ => self.draw() as u32,
        }
    }
}
