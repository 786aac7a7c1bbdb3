//! Instruction numbers for rows.

use crate::random::Random;
use second::bytes::table_bytes;
use second::{Row, Width};

/// Numbers of every size, so that one taken from another row shows; at times a row has that of the
/// row before.
pub fn sources(random: &mut Random, count: usize) -> Vec<u32> {
    let mut source = random.source();
    let numbers = (0..count).map(|_| {
        if !random.one_in(8) {
            source = random.source();
        }
        source
    });
    numbers.collect()
}

/// The bytes of a table of `rows`.
pub fn numbered(random: &mut Random, width: Width, rows: &[Row]) -> Vec<u8> {
    table_bytes(width, rows, &sources(random, rows.len()))
}
