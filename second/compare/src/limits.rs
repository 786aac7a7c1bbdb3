//! The limits that runs and edits are given.

use second::HIGHEST_LIMIT;
use tables::random::Random;

/// The kinds of limits, each of which is to be given.
pub const KINDS_OF_LIMIT: [&str; 10] = [
    "limit 0",
    "limit 1",
    "limit 2",
    "limit 3",
    "limit 4 to 1,022",
    "limit 1,023",
    "limit 1,024",
    "limit 1,025, refused",
    "limit above, not by its low bits, refused",
    "any other limit above, refused",
];

pub fn kind_of_limit(limit: u64) -> usize {
    match limit {
        0..=3 => limit as usize,
        4..=1022 => 4,
        1023 => 5,
        HIGHEST_LIMIT => 6,
        1025 => 7,
        // What 32 or 16 bits hold of it would not be refused.
        _ if (limit as u32).min(limit as u16 as u32) <= 1024 => 8,
        _ => 9,
    }
}

/// A limit for a table of so many rows: often the highest, often so low that reads meet it.
pub fn some(random: &mut Random, rows: usize) -> u64 {
    let rows = (rows as u64).min(HIGHEST_LIMIT);
    match random.below(10) {
        0..=3 => HIGHEST_LIMIT,
        4 => random.from_to(0, 3),
        5 | 6 => random.from_to(0, 8),
        7 => random.from_to(0, rows),
        8 => random.pick(&[rows, rows / 2, 1023]),
        _ => random.from_to(0, HIGHEST_LIMIT),
    }
}

pub fn refused(random: &mut Random) -> u64 {
    match random.below(4) {
        0 => 1025,
        // Below 1,025 in its low bits.
        1 => random.from_to(0, 1024) | 1 << random.from_to(32, 63),
        2 => random.pick(&[1026, 2048, 65_535, 65_536, 65_537, 1 << 32, 1 << 63, u64::MAX]),
        _ => random.draw().max(1025),
    }
}

/// At times one that is refused.
pub fn any(random: &mut Random, rows: usize) -> u64 {
    if random.one_in(12) {
        refused(random)
    } else {
        some(random, rows)
    }
}
