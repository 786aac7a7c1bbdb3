//! Ranges of unsigned values, in one piece or two.

use crate::watch::{Event, Watch};
use crate::word::Width;
use std::iter::once;

/// All values from `low` to `high`, both included.
#[derive(Clone, Copy, PartialEq, Eq, Debug)]
pub struct Piece {
    pub low: u64,
    pub high: u64,
}

/// One piece, or two with a gap between them, the lower first.
#[derive(Clone, Copy, PartialEq, Eq, Debug)]
pub struct Range {
    pub first: Piece,
    pub second: Option<Piece>,
}

impl Piece {
    /// The ends are summed as whole numbers: at w = 64 a wrapped sum hides the carry.
    fn plus(self, other: Piece, width: Width, watch: &mut impl Watch) -> Vec<Piece> {
        let low = self.low as u128 + other.low as u128;
        let high = self.high as u128 + other.high as u128;
        let modulus = width.modulus();
        if high < modulus {
            watch.saw(Event::RangeSumPlain);
            vec![Piece { low: low as u64, high: high as u64 }]
        } else if low >= modulus {
            watch.saw(Event::RangeSumWraps);
            vec![Piece { low: (low - modulus) as u64, high: (high - modulus) as u64 }]
        } else {
            watch.saw(Event::RangeSumStraddles);
            let below = Piece { low: 0, high: (high - modulus) as u64 };
            vec![below, Piece { low: low as u64, high: width.largest() }]
        }
    }

    fn negated(self, width: Width, watch: &mut impl Watch) -> Vec<Piece> {
        let from = |end: u64| (width.modulus() - end as u128) as u64;
        if self.high == 0 {
            watch.saw(Event::RangeNegatedZero);
            vec![self]
        } else if self.low > 0 {
            watch.saw(Event::RangeNegatedPositive);
            vec![Piece { low: from(self.high), high: from(self.low) }]
        } else {
            watch.saw(Event::RangeNegatedFromZero);
            let zero = Piece { low: 0, high: 0 };
            vec![zero, Piece { low: from(self.high), high: width.largest() }]
        }
    }

    fn shares_a_number(self, other: Piece) -> bool {
        self.low <= other.high && other.low <= self.high
    }
}

impl Range {
    pub fn of(low: u64, high: u64) -> Range {
        Range { first: Piece { low, high }, second: None }
    }

    pub fn only(value: u64) -> Range {
        Range::of(value, value)
    }

    pub fn full(width: Width) -> Range {
        Range::of(0, width.largest())
    }

    pub fn pieces(self) -> impl Iterator<Item = Piece> {
        once(self.first).chain(self.second)
    }

    pub fn plus(self, other: Range, width: Width, watch: &mut impl Watch) -> Range {
        let mut sums = Vec::new();
        for one in self.pieces() {
            for another in other.pieces() {
                sums.extend(one.plus(another, width, watch));
            }
        }
        union(sums, watch)
    }

    pub fn negated(self, width: Width, watch: &mut impl Watch) -> Range {
        let mut negations = Vec::new();
        for piece in self.pieces() {
            negations.extend(piece.negated(width, watch));
        }
        union(negations, watch)
    }

    pub fn shares_a_number(self, other: Range) -> bool {
        self.pieces().any(|one| other.pieces().any(|another| one.shares_a_number(another)))
    }
}

/// The pieces in order, joined where they touch or overlap; then the smallest gap is filled, of
/// equal ones the lowest, until two pieces remain.
fn union(mut pieces: Vec<Piece>, watch: &mut impl Watch) -> Range {
    pieces.sort_by_key(|piece| piece.low);
    let mut apart: Vec<Piece> = Vec::new();
    for piece in pieces {
        match apart.last_mut() {
            Some(last) if piece.low <= last.high => {
                watch.saw(Event::RangePiecesOverlap);
                last.high = last.high.max(piece.high);
            }
            Some(last) if piece.low == last.high + 1 => {
                watch.saw(Event::RangePiecesTouch);
                last.high = piece.high;
            }
            _ => apart.push(piece),
        }
    }
    while apart.len() > 2 {
        let gap = |lower: &usize| apart[lower + 1].low - apart[*lower].high;
        // Of equal ones this is the first.
        let smallest = (0..apart.len() - 1).min_by_key(gap).expect("more than one gap");
        apart[smallest].high = apart.remove(smallest + 1).high;
    }
    if apart.len() == 2 {
        watch.saw(Event::RangeOfTwoPieces);
    }
    Range { first: apart[0], second: apart.get(1).copied() }
}

#[cfg(test)]
mod tests;
