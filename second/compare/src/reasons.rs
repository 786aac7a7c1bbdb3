//! The reason that a list or a comparison gives, read back from its words.

use crate::line::Line;
use second::Width;

/// The *first* of two places is a list's store, the *second* its read.
#[derive(Clone, Copy, PartialEq, Eq, Debug)]
pub enum Reason {
    SamePlace,
    SharedBase,
    SeparateRanges,
    FirstInTwoPieces,
    SecondInTwoPieces,
    Undecided,
}

/// With `#` for each number. Every range of two pieces that a row has holds 0 and 2^w - 1, so two of
/// them are never separate.
pub const REASONS: [(Reason, &str); 6] = [
    (Reason::SamePlace, "same place"),
    (Reason::SharedBase, "different offsets on a shared base, # and #"),
    (Reason::SeparateRanges, "separate ranges, #..# and #..#"),
    (Reason::FirstInTwoPieces, "separate ranges, #..#, #..# and #..#"),
    (Reason::SecondInTwoPieces, "separate ranges, #..# and #..#, #..#"),
    (Reason::Undecided, "undecided"),
];

/// A reason, and the numbers that it gives.
pub struct Given {
    pub reason: Reason,
    says: Vec<u64>,
}

impl Given {
    pub fn of(form: &str, numbers: &[u64]) -> Option<Given> {
        let (reason, _) = *REASONS.iter().find(|(_, stated)| *stated == form)?;
        Some(Given { reason, says: numbers.to_vec() })
    }

    pub fn read(text: &str) -> Option<Given> {
        let line = Line::of(text)?;
        Given::of(&line.form, &line.numbers)
    }

    pub fn by_pieces(&self) -> bool {
        matches!(self.reason, Reason::FirstInTwoPieces | Reason::SecondInTwoPieces)
    }

    /// Whether it is true of two places, where they are these words.
    pub fn true_of(&self, width: Width, words: [u64; 2]) -> bool {
        let [first, second] = words;
        match (self.reason, &self.says[..]) {
            (Reason::SamePlace, []) => first == second,
            (Reason::SharedBase, [p, q]) => p != q && width.sub(second, first) == width.sub(*q, *p),
            (Reason::FirstInTwoPieces, says) => separate(says.split_at(4), words),
            (Reason::SeparateRanges | Reason::SecondInTwoPieces, says) => {
                separate(says.split_at(2), words)
            }
            (Reason::Undecided, []) => true,
            _ => false,
        }
    }
}

/// Whether two ranges, each given by the ends of its pieces, hold these words and share none. The
/// ends of two pieces are in order and leave a word between them.
fn separate((one, other): (&[u64], &[u64]), words: [u64; 2]) -> bool {
    let in_order = |ends: &[u64]| ends.windows(2).all(|pair| pair[0] <= pair[1]);
    let parted = |ends: &[u64]| ends.len() == 2 || ends[2] - ends[1] > 1;
    let has = |piece: &[u64], word: u64| piece[0] <= word && word <= piece[1];
    let right = |(ends, word): (&[u64], u64)| {
        in_order(ends) && parted(ends) && ends.chunks(2).any(|piece| has(piece, word))
    };
    let apart = |piece: &[u64], another: &[u64]| piece[1] < another[0] || another[1] < piece[0];
    [one, other].into_iter().zip(words).all(right)
        && one.chunks(2).all(|piece| other.chunks(2).all(|another| apart(piece, another)))
}
