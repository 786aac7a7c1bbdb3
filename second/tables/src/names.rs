//! Names for variables, and the bounds that go with each.

use crate::random::Random;
use second::Row;
use std::collections::BTreeMap;

/// A few names that a table's variables have in turn, so that they are seen again: at times none,
/// at times some that agree modulo 256.
pub fn few(random: &mut Random) -> Vec<u16> {
    match random.below(8) {
        0 | 1 => vec![0],
        2 => vec![0, 1],
        3 => vec![1, 2, 3, 4, 5],
        4 => vec![3, 259, 65_283],
        5 => vec![0, 255, 256, 511, 65_535],
        6 => vec![65_535],
        _ => (0..3).map(|_| random.draw() as u16).collect(),
    }
}

/// More names than 256, of which many agree modulo 256.
pub fn many(random: &mut Random) -> Vec<u16> {
    match random.below(4) {
        0 => (1..=1000).collect(),
        1 => (0..300).map(|i| i * 218 + 1).collect(),
        // All agree.
        2 => (0..=255).map(|i| i * 256 + 3).chain([0]).collect(),
        _ => (0..600).map(|_| random.draw() as u16).collect(),
    }
}

/// The bounds that the variables of each name state.
#[derive(Default)]
pub struct Bounds(BTreeMap<u16, [u64; 2]>);

impl Bounds {
    pub fn of(rows: impl IntoIterator<Item = Row>) -> Bounds {
        let mut bounds = Bounds::default();
        rows.into_iter().for_each(|row| bounds.add(row));
        bounds
    }

    pub fn add(&mut self, row: Row) {
        if let Row::Var { name: name @ 1.., low, high } = row {
            self.0.insert(name, [low, high]);
        }
    }

    /// A variable of this name: within the bounds given, or those that the name has already.
    pub fn variable(&self, name: u16, bounds: [u64; 2]) -> Row {
        let [low, high] = *self.0.get(&name).unwrap_or(&bounds);
        Row::Var { name, low, high }
    }
}
