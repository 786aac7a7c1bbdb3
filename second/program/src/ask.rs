//! A question about two word rows of a table: what their rows in its kept result tell of them, as
//! those stand, whosever result it is.

use crate::check::{check_rows, Refused};
use crate::reason::{Reason, Relation};
use crate::row::Sort;
use crate::simplify::Simplifier;
use crate::watch::Watch;
use crate::{answered, check_kept, check_lent, check_number, Answer, Counts, HIGHEST_LIMIT};

#[derive(Clone, Copy, PartialEq, Eq, Debug)]
pub struct Comparison {
    pub answer: Answer,
    /// How the relation is known; on a refusal undecided.
    pub reason: Reason,
}

impl Comparison {
    pub fn relation(self) -> Relation {
        self.reason.relation()
    }
}

pub fn ask(table: &[u8], kept: &[u8], first: u64, second: u64) -> Comparison {
    ask_watched(table, kept, first, second, &mut ())
}

pub fn ask_watched(
    table: &[u8], kept: &[u8], first: u64, second: u64, watch: &mut impl Watch,
) -> Comparison {
    let mut reason = Reason::Undecided;
    let answer = answered((|| {
        let header = check_lent(table, kept)?;
        check_number(first, header)?;
        check_number(second, header)?;
        let rows = check_rows(table, header)?;
        let standing = check_kept(table, &rows, &kept[..table.len()], watch)?;
        for number in [first, second] {
            if rows[number as usize].sort() == Sort::Array {
                return Err(Refused { number: 14, row: number });
            }
        }
        // Rows above both have no part in their ranges.
        let [first, second] = [first, second].map(|number| number as usize);
        let mut result = Simplifier::new(header, HIGHEST_LIMIT, watch);
        for row in &standing[..=first.max(second)] {
            result.settle(*row);
        }
        reason = result.reason(first, second);
        // Without a run no READ is removed, no row touched and no store compared.
        Ok(Counts::default())
    })());
    Comparison { answer, reason }
}

#[cfg(test)]
mod tests;
