//! What two word rows are to each other, and how that is known.

use crate::range::Range;
use std::fmt;

#[derive(Clone, Copy, PartialEq, Eq, Debug)]
pub enum Relation {
    NotKnown,
    Same,
    Apart,
}

/// What is found on comparing one word with another; offsets and ranges are in their order.
#[derive(Clone, Copy, PartialEq, Eq, Debug)]
pub enum Reason {
    SamePlace,
    SharedBase { offsets: [u64; 2] },
    SeparateRanges { ranges: [Range; 2] },
    Undecided,
}

impl Reason {
    pub fn relation(self) -> Relation {
        match self {
            Reason::SamePlace => Relation::Same,
            Reason::SharedBase { .. } | Reason::SeparateRanges { .. } => Relation::Apart,
            Reason::Undecided => Relation::NotKnown,
        }
    }
}

impl fmt::Display for Relation {
    fn fmt(&self, f: &mut fmt::Formatter) -> fmt::Result {
        f.write_str(match self {
            Relation::NotKnown => "not known",
            Relation::Same => "same",
            Relation::Apart => "apart",
        })
    }
}

impl fmt::Display for Reason {
    fn fmt(&self, f: &mut fmt::Formatter) -> fmt::Result {
        match self {
            Reason::SamePlace => write!(f, "same place"),
            Reason::SharedBase { offsets: [p, q] } => {
                write!(f, "different offsets on a shared base, {p} and {q}")
            }
            Reason::SeparateRanges { ranges: [s, t] } => {
                write!(f, "separate ranges, {s} and {t}")
            }
            Reason::Undecided => write!(f, "undecided"),
        }
    }
}

impl fmt::Display for Range {
    fn fmt(&self, f: &mut fmt::Formatter) -> fmt::Result {
        write!(f, "{}..{}", self.first.low, self.first.high)?;
        match self.second {
            Some(second) => write!(f, ", {}..{}", second.low, second.high),
            None => Ok(()),
        }
    }
}
