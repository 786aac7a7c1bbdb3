//! Kept results that are not a table's own, or go with no such table, or are not whole.

use crate::damage::damaged;
use crate::meaning::decoded;
use crate::sources::renumbered;
use second::bytes::{sources, table_bytes};
use second::{Ref, Row, Sort, Width, HIGHEST_LIMIT};
use tables::deep::{self, Habits};
use tables::random::Random;
use tables::sources::numbered;
use tables::wellformed::{self, rows_of_sorts, Place, Taste};

pub fn word_rows(rows: &[Row]) -> Vec<Ref> {
    (0..rows.len()).filter(|row| rows[*row].sort() == Sort::Word).collect()
}

/// A kept result that is not the table's own, given that one.
pub fn foreign(random: &mut Random, table: &[u8], result: &[u8]) -> Vec<u8> {
    let (width, rows) = decoded(table);
    let sorts: Vec<Sort> = rows.iter().map(|row| row.sort()).collect();
    let mut kept = match random.below(18) {
        0..=3 => others(random, width, &sorts),
        4 | 5 => table.to_vec(),
        6 => {
            let other = others(random, width, &sorts);
            let mut kept = vec![0; other.len()];
            second::run(&other, &mut kept, HIGHEST_LIMIT);
            kept
        }
        7..=9 => with_other_rows(random, width, result),
        10 | 11 => {
            let habits = Habits { stride: random.pick(&[1, 2, 3]), variables: true };
            let rows = deep::rows(random, width, &sorts, habits);
            numbered(random, width, &rows)
        }
        12 => {
            let others = wellformed::rows(random, width, rows.len());
            numbered(random, width, &others)
        }
        13 => {
            let width = random.width();
            numbered(random, width, &vec![Row::Fresh; rows.len()])
        }
        14 => of_other_sort(random, width, result),
        15 => of_other_width(random, result),
        16 => of_other_count(random, width, result),
        _ => damaged(random, width, result),
    };
    if random.one_in(2) {
        kept = renumbered(random, &kept);
    }
    of_any_length(random, &kept, table.len())
}

/// Any rows of these sorts.
pub fn others(random: &mut Random, width: Width, sorts: &[Sort]) -> Vec<u8> {
    let taste = Taste::new(random, width);
    let rows = rows_of_sorts(random, &taste, sorts);
    numbered(random, width, &rows)
}

/// Bytes to lend as the kept result of a table so long: at times with others behind them, at times
/// too few.
pub fn of_any_length(random: &mut Random, kept: &[u8], needed: usize) -> Vec<u8> {
    let mut kept = kept.to_vec();
    match random.below(8) {
        0 => {
            let count = 1 + random.below(60);
            kept.extend(random.bytes(count));
        }
        1 if random.one_in(4) => kept.truncate(needed.saturating_sub(1 + random.below(30))),
        2 if random.one_in(16) => kept.truncate(random.below(needed + 1)),
        _ => {}
    }
    kept
}

/// The result with some rows exchanged for others of their sort, each with the number of the old.
fn with_other_rows(random: &mut Random, width: Width, result: &[u8]) -> Vec<u8> {
    let (_, mut rows) = decoded(result);
    let taste = Taste::new(random, width);
    for _ in 0..rows.len().min(4) {
        let row = random.below(rows.len());
        rows[row] = taste.row(random, rows[row].sort(), &Place::of(row, &rows));
    }
    table_bytes(width, &rows, &sources(result))
}

/// The table, result or not, with one word row exchanged for one that is nearly another above it, or
/// just that; and the two rows. There the outcomes of nearly equal rules part.
pub fn with_twins(random: &mut Random, table: &[u8]) -> Option<(Vec<u8>, [Ref; 2])> {
    let (width, mut rows) = decoded(table);
    let words = word_rows(&rows);
    let (_, but_last) = words.split_last()?;
    let compound =
        |row: &Ref| matches!(rows[*row], Row::Sum { .. } | Row::Diff { .. } | Row::Neg { .. });
    let compounds: Vec<Ref> = but_last.iter().copied().filter(compound).collect();
    let among = if random.one_in(2) { &compounds } else { but_last };
    if among.is_empty() {
        return None;
    }
    let one = random.pick(among);
    let later: Vec<Ref> = words.into_iter().filter(|row| *row > one).collect();
    let other = random.pick(&later);
    rows[other] = twin(random, width, &rows[..other], one);
    Some((table_bytes(width, &rows, &sources(table)), [one, other]))
}

/// A row behind `rows` that is nearly the word row `of`.
fn twin(random: &mut Random, width: Width, rows: &[Row], of: Ref) -> Row {
    let (other, word) = (random.pick(&word_rows(rows)), random.word(width));
    if random.one_in(6) {
        return Row::Shift { a: of, k: random.pick(&[0, word]) };
    }
    let k_or = |random: &mut Random, k: u64| if random.one_in(3) { word } else { k };
    let row_or = |random: &mut Random, row: Ref| if random.one_in(4) { other } else { row };
    match rows[of] {
        Row::Const { k } => Row::Const { k: k_or(random, k) },
        Row::Shift { a, k } => {
            let (a, k) = (row_or(random, a), k_or(random, k));
            random.pick(&[Row::Shift { a, k }, Row::Shift { a, k }, Row::Neg { a, k }])
        }
        Row::Neg { a, k } => {
            let (a, k) = (row_or(random, a), k_or(random, k));
            random.pick(&[Row::Neg { a, k }, Row::Neg { a, k }, Row::Shift { a, k }])
        }
        Row::Sum { a, b, k } | Row::Diff { a, b, k } => {
            let (a, b, k) = (row_or(random, a), row_or(random, b), k_or(random, k));
            let (a, b) = if random.one_in(4) { (b, a) } else { (a, b) };
            let was_sum = matches!(rows[of], Row::Sum { .. });
            if was_sum != random.one_in(6) {
                Row::Sum { a, b, k }
            } else {
                Row::Diff { a, b, k }
            }
        }
        // A VAR or READ again is another variable or read.
        same => same,
    }
}

/// The result with one row exchanged for one of the other sort. No row refers to it, so that it is a
/// table still.
fn of_other_sort(random: &mut Random, width: Width, result: &[u8]) -> Vec<u8> {
    let (_, mut rows) = decoded(result);
    let named: Vec<Ref> = rows.iter().flat_map(|row| row.references()).collect();
    let free: Vec<Ref> = (0..rows.len()).filter(|row| !named.contains(row)).collect();
    if !free.is_empty() {
        let row = random.pick(&free);
        rows[row] = match rows[row].sort() {
            Sort::Word => Row::Fresh,
            Sort::Array => Row::Const { k: random.word(width) },
        };
    }
    table_bytes(width, &rows, &sources(result))
}

/// The result as it is but for the width, most often one that its values fit too.
fn of_other_width(random: &mut Random, result: &[u8]) -> Vec<u8> {
    let mut kept = result.to_vec();
    let width = kept[2] as u64;
    kept[2] = match random.below(4) {
        0 => random.from_to(1, 64),
        _ => random.from_to(width, 64).max(width + 1).min(64),
    } as u8;
    kept
}

/// A row more or less than the result has, in as many bytes or more.
fn of_other_count(random: &mut Random, width: Width, result: &[u8]) -> Vec<u8> {
    let (_, mut rows) = decoded(result);
    if random.one_in(2) {
        rows.push(Row::Const { k: 0 });
    } else {
        rows.pop();
    }
    let mut kept = numbered(random, width, &rows);
    kept.resize(kept.len().max(result.len()), 0);
    kept
}
