//! Why a read moved: the walk of one READ row as a list of lines, which docs/WHY.md sets.

use crate::bytes::sources;
use crate::check::{check_rows, refused, Refused};
use crate::row::{Ref, Row};
use crate::simplify::{End, Simplifier};
use crate::text::row_line;
use crate::watch::Watch;
use crate::{
    answered, check_lent, check_number, counts, simplified, write_result, Answer, Counts,
    HIGHEST_LIMIT,
};

#[derive(Clone, Copy, PartialEq, Eq, Debug)]
pub struct Listing {
    pub answer: Answer,
    /// Of the list, where there is one: on acceptance and on refusal 22.
    pub length: u64,
}

pub fn why(table: &[u8], result: &mut [u8], row: u64, list: &mut [u8]) -> Listing {
    why_watched(table, result, row, list, &mut ())
}

pub fn why_watched(
    table: &[u8], result: &mut [u8], row: u64, list: &mut [u8], watch: &mut impl Watch,
) -> Listing {
    let mut length = 0;
    let answer = answered((|| {
        let header = check_lent(table, result)?;
        check_number(row, header)?;
        let rows = check_rows(table, header)?;
        let read = row as usize;
        let Row::Read { array, index } = rows[read] else {
            return Err(Refused { number: 17, row });
        };
        let mut outcome = simplified(header, &rows, HIGHEST_LIMIT, watch);
        let sources = sources(table);
        let lines = lines(&mut outcome, &sources, read, array, index);
        length = lines.len();
        list.get_mut(..length).ok_or(refused(22))?.copy_from_slice(lines.as_bytes());
        write_result(result, table, outcome.rows(), &sources);
        // It takes no limit and does not count what is compared.
        Ok(Counts { compared: 0, ..counts(&rows, &outcome, header.rows) })
    })());
    Listing { answer, length: length as u64 }
}

/// The list of row `read`. All that its walk met stands below it, so it may be walked again.
fn lines<W: Watch>(
    outcome: &mut Simplifier<W>, sources: &[u32], read: Ref, array: Ref, index: Ref,
) -> String {
    let own = sources[read];
    let mut lines = format!("instruction {own}: read {read}, array {array}, index {index}\n");
    let end = outcome.walk(array, index, |store, at, reason| {
        lines += &format!(
            "instruction {}: store {store}, index {at} against {index}, {reason}\n",
            sources[store]
        );
    });
    lines += &match end {
        End::Found { element } => format!("found element {element}\n"),
        End::Stands { on } => format!("stands on array {on}\n"),
    };
    lines + &format!("result {}", row_line(read, outcome.rows()[read], own))
}
