//! Which rows an edit works out anew, searched from each row on its own, unlike the way either
//! program goes about it.

use second::{Ref, Row};
use std::collections::HashMap;

/// For each row whether it is `edited`, or leads back to it in the rows before or after the edit.
pub fn worked_out_anew(before: &[Row], after: &[Row], edited: Ref) -> Vec<bool> {
    let tables = [before, after].map(|rows| (rows, firsts(rows)));
    let leads = |row| tables.iter().any(|(rows, firsts)| leads_back(rows, firsts, row, edited));
    (0..after.len()).map(leads).collect()
}

/// The first row of each name.
pub fn firsts(rows: &[Row]) -> HashMap<u16, Ref> {
    // From the last row on, so that the first of a name is the one that stays.
    let numbered = rows.iter().enumerate().rev();
    numbered.filter_map(|(number, row)| Some((row.name()?, number))).collect()
}

fn leads_back(rows: &[Row], firsts: &HashMap<u16, Ref>, from: Ref, to: Ref) -> bool {
    let mut seen = vec![false; rows.len()];
    let mut left = vec![from];
    while let Some(row) = left.pop() {
        if row == to {
            return true;
        }
        // Rows below the target lead still lower.
        if row > to && !std::mem::replace(&mut seen[row], true) {
            left.extend(rows[row].references());
            left.extend(rows[row].name().map(|name| firsts[&name]));
        }
    }
    false
}
