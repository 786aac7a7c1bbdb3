//! Rows to put in the place of others.

use crate::damage;
use second::bytes::{row_bytes, table_length, ROW, SOURCE};
use second::check::{check_header, check_rows};
use second::{Row, Sort, Width};
use tables::random::Random;
use tables::wellformed::{Place, Taste};

/// A replacement for row `number` of `rows`: as a rule well formed and of the same sort, with any
/// instruction number.
pub fn replacement(
    random: &mut Random, width: Width, rows: &[Row], kept: &[u8], number: u64,
) -> Vec<u8> {
    let row = (number as usize).min(rows.len().saturating_sub(1));
    let old = rows.get(row).copied().unwrap_or(Row::Fresh);
    let taste = taste(random, width, rows);
    let place = Place::of(row, rows);
    let sort = match old.sort() {
        Sort::Word if random.one_in(16) => Sort::Array,
        Sort::Array if random.one_in(16) => Sort::Word,
        sort => sort,
    };
    let aimed = if random.one_in(3) { aimed(random, kept, row, rows.len(), sort) } else { None };
    let new = aimed.unwrap_or_else(|| match old {
        Row::Var { .. } if random.one_in(2) => taste.variable(random, &place),
        Row::Shift { a, .. } if random.one_in(2) => Row::Shift { a, k: random.word(width) },
        _ => taste.row(random, sort, &place),
    });
    let mut bytes = row_bytes(new, random.source()).to_vec();
    match random.below(24) {
        0 => bytes.resize(random.pick(&[0, 1, SOURCE, ROW - 1, ROW + 1, 2 * ROW]), 0),
        1 | 2 => damage::row(random, width, row, &mut bytes),
        _ => {}
    }
    bytes
}

/// Mostly one for the names that the rows have.
fn taste(random: &mut Random, width: Width, rows: &[Row]) -> Taste {
    let names: Vec<u16> = rows.iter().filter_map(|row| row.name()).collect();
    let taste = Taste::new(random, width);
    if names.is_empty() || random.one_in(4) {
        taste
    } else {
        taste.with_names(names)
    }
}

/// A row that names an earlier row together with what that one names in the kept result: there
/// the outcomes of nearly equal rules part.
fn aimed(random: &mut Random, kept: &[u8], row: usize, count: usize, sort: Sort) -> Option<Row> {
    let kept = kept.get(..table_length(count))?;
    let standing = check_rows(kept, check_header(kept).ok()?).ok()?;
    let near = random.below(row.max(1));
    let turned = random.one_in(2);
    match (*standing[..row].get(near)?, sort) {
        (Row::Shift { a, k }, Sort::Word) => Some(match random.below(4) {
            0 => Row::Sum { a: near, b: a, k },
            1 => Row::Neg { a: near, k },
            _ if turned => Row::Diff { a, b: near, k },
            _ => Row::Diff { a: near, b: a, k },
        }),
        (Row::Sum { .. } | Row::Diff { .. } | Row::Neg { .. }, Sort::Word) if turned => {
            Some(Row::Neg { a: near, k: 0 })
        }
        (Row::Sum { a, b, k } | Row::Diff { a, b, k }, Sort::Word) => Some(Row::Diff { a, b, k }),
        (Row::Write { index, .. }, Sort::Word) => Some(Row::Read { array: near, index }),
        (Row::Write { index, value, .. }, Sort::Array) => {
            Some(Row::Write { array: near, index, value })
        }
        _ => None,
    }
}
