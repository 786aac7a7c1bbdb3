//! The second program: the term table of document 01 and its change requests and the lists of
//! docs/WHY.md, written from those documents alone, so that the library can be held to it. Rows are
//! decoded once, worked on as enums, and encoded at the end, where each gets its instruction number,
//! which no rule has seen; nothing lent is written before the outcome is certain.

pub mod arguments;
mod ask;
pub mod bytes;
pub mod check;
mod names;
mod normal;
mod range;
mod reason;
mod row;
mod simplify;
pub mod text;
mod watch;
mod why;
mod word;

pub use ask::{ask, ask_watched, Comparison};
pub use reason::{Reason, Relation};
pub use row::{Ref, Row, Sort};
pub use watch::{Event, Watch};
pub use why::{why, why_watched, Listing};
pub use word::Width;

use bytes::{place, row_bytes, sources, table_length, Fields, HEADER, ROW};
use check::{check_header, check_rows, refused, Header, Refused};
use names::first_of_name;
use simplify::Simplifier;

/// The highest limit on the stores that a READ compares, and the one of all that takes none.
pub const HIGHEST_LIMIT: u64 = 1024;

#[derive(Clone, Copy, PartialEq, Eq, Debug)]
pub struct Answer {
    pub refusal: u64,
    pub row: u64,
    pub removed: u64,
    pub touched: u64,
    pub compared: u64,
}

pub fn run(table: &[u8], result: &mut [u8], limit: u64) -> Answer {
    run_watched(table, result, limit, &mut ())
}

pub fn edit(table: &mut [u8], kept: &mut [u8], row: u64, replacement: &[u8], limit: u64) -> Answer {
    edit_watched(table, kept, row, replacement, limit, &mut ())
}

pub fn run_watched(table: &[u8], result: &mut [u8], limit: u64, watch: &mut impl Watch) -> Answer {
    answered((|| {
        let header = check_lent(table, result)?;
        check_limit(limit)?;
        let rows = check_rows(table, header)?;
        let outcome = simplified(header, &rows, limit, watch);
        write_result(result, table, outcome.rows(), &sources(table));
        Ok(counts(&rows, &outcome, header.rows))
    })())
}

pub fn edit_watched(
    table: &mut [u8], kept: &mut [u8], row: u64, replacement: &[u8], limit: u64,
    watch: &mut impl Watch,
) -> Answer {
    answered((|| {
        let header = check_lent(table, kept)?;
        check_number(row, header)?;
        let replacement: &[u8; ROW] = replacement.try_into().map_err(|_| refused(8))?;
        check_limit(limit)?;
        let edited = row as usize;

        let mut new_table = table.to_vec();
        new_table[place(edited)].copy_from_slice(replacement);
        let rows = check_rows(&new_table, header)?;
        let standing = check_kept(&new_table, &rows, &kept[..new_table.len()], watch)?;

        let anew = worked_out_anew(table, &rows, edited, watch);
        let carried = carried(&new_table, &kept[..new_table.len()], &anew, watch);
        let mut outcome = Simplifier::new(header, limit, watch);
        for number in 0..header.rows {
            if anew[number] {
                work_out(&mut outcome, &rows, number);
            } else {
                outcome.settle(standing[number]);
            }
        }
        let touched = anew.iter().filter(|anew| **anew).count();
        table[place(edited)].copy_from_slice(replacement);
        write_result(kept, table, outcome.rows(), &carried);
        Ok(counts(&rows, &outcome, touched))
    })())
}

/// Refusals 1 to 6.
fn check_lent(table: &[u8], result: &[u8]) -> Result<Header, Refused> {
    let header = check_header(table)?;
    if result.len() < table.len() {
        return Err(refused(6));
    }
    Ok(header)
}

fn check_number(row: u64, header: Header) -> Result<(), Refused> {
    if row >= header.rows as u64 {
        return Err(refused(7));
    }
    Ok(())
}

fn check_limit(limit: u64) -> Result<(), Refused> {
    if limit > HIGHEST_LIMIT {
        return Err(refused(19));
    }
    Ok(())
}

/// The rows of a kept result that goes with the table, of which these are the rows; an edit's has the
/// replacement in place.
fn check_kept(
    table: &[u8], rows: &[Row], kept: &[u8], watch: &mut impl Watch,
) -> Result<Vec<Row>, Refused> {
    let standing = check_header(kept).and_then(|header| check_rows(kept, header));
    let standing = standing.map_err(|fault| {
        let other_bounds = fault.number == 18;
        watch.saw(if other_bounds { Event::KeptOtherBounds } else { Event::KeptMalformed });
        refused(16)
    })?;
    if kept[..HEADER] != table[..HEADER] {
        watch.saw(Event::KeptOtherHeader);
        return Err(refused(16));
    }
    if standing.iter().zip(rows).any(|(kept, row)| kept.sort() != row.sort()) {
        watch.saw(Event::KeptOtherSort);
        return Err(refused(16));
    }
    Ok(standing)
}

fn simplified<'w, W: Watch>(
    header: Header, rows: &[Row], limit: u64, watch: &'w mut W,
) -> Simplifier<'w, W> {
    let mut outcome = Simplifier::new(header, limit, watch);
    for number in 0..rows.len() {
        work_out(&mut outcome, rows, number);
    }
    outcome
}

/// Works out the next row, `number` of the table. A VAR of a name seen before is SHIFT of the first
/// by 0 to the letter, even where a kept result has something else in the place of the first.
fn work_out<W: Watch>(outcome: &mut Simplifier<W>, rows: &[Row], number: Ref) {
    match first_of_name(&rows[..number], rows[number]) {
        Some(first) => outcome.settle_as_first(first),
        None => outcome.work_out(rows[number]),
    }
}

/// For each row whether an edit works it out anew: the edited row, and those that lead back to it in
/// the table as it stood or as it stands.
fn worked_out_anew(table: &[u8], rows: &[Row], edited: Ref, watch: &mut impl Watch) -> Vec<bool> {
    let mut rows_before = rows.to_vec();
    rows_before[edited] = row_before(table[place(edited)].try_into().unwrap());
    let before = leading_back(&rows_before, edited, watch);
    let after = leading_back(rows, edited, watch);
    let either = before.into_iter().zip(after).map(|(before, after)| {
        match (before, after) {
            (true, false) => watch.saw(Event::LedBackBefore),
            (false, true) => watch.saw(Event::LedBackAfter),
            _ => {}
        }
        before || after
    });
    either.collect()
}

/// The row that an edit replaces, which may be malformed: its kind byte says whether it is a VAR and
/// has a name. Only rows that lead back to it are sought, so no matter what else it is.
fn row_before(bytes: &[u8; ROW]) -> Row {
    let Fields { kind, references: [name, ..], values: [low, high], .. } = Fields::of(bytes);
    if kind == 2 {
        Row::Var { name, low, high }
    } else {
        Row::Fresh
    }
}

/// For each row whether it is `edited` or leads back to it, through references and from a VAR to the
/// first of its name.
fn leading_back(rows: &[Row], edited: Ref, watch: &mut impl Watch) -> Vec<bool> {
    let mut leads = vec![false; rows.len()];
    leads[edited] = true;
    for number in edited + 1..rows.len() {
        let by_reference = rows[number].references().any(|reference| leads[reference]);
        let first = first_of_name(&rows[..number], rows[number]);
        let by_name = first.is_some_and(|first| leads[first]);
        if by_name {
            watch.saw(Event::LedBackByName);
        }
        leads[number] = by_reference || by_name;
    }
    leads
}

/// The instruction numbers of an edit's outcome: a row worked out anew has that of its row in the
/// edited table, any other the one that it was kept with.
fn carried(table: &[u8], kept: &[u8], anew: &[bool], watch: &mut impl Watch) -> Vec<u32> {
    let mut numbers = sources(kept);
    for ((number, own), anew) in numbers.iter_mut().zip(sources(table)).zip(anew) {
        if *number != own {
            watch.saw(if *anew { Event::SourceTaken } else { Event::SourceStays });
        }
        if *anew {
            *number = own;
        }
    }
    numbers
}

/// The counts of an accepted call.
#[derive(Default)]
struct Counts {
    removed: usize,
    touched: usize,
    compared: u64,
}

fn counts<W: Watch>(rows: &[Row], outcome: &Simplifier<W>, touched: usize) -> Counts {
    let removed =
        rows.iter().zip(outcome.rows()).filter(|(row, new)| row.is_read() && !new.is_read());
    Counts { removed: removed.count(), touched, compared: outcome.compared() }
}

fn write_result(result: &mut [u8], table: &[u8], rows: &[Row], sources: &[u32]) {
    result[..HEADER].copy_from_slice(&table[..HEADER]);
    let places = result[HEADER..table_length(rows.len())].chunks_exact_mut(ROW);
    for ((place, row), source) in places.zip(rows).zip(sources) {
        place.copy_from_slice(&row_bytes(*row, *source));
    }
}

fn answered(outcome: Result<Counts, Refused>) -> Answer {
    let (Refused { number, row }, counts) = match outcome {
        Ok(counts) => (refused(0), counts),
        Err(refused) => (refused, Counts::default()),
    };
    let Counts { removed, touched, compared } = counts;
    let [removed, touched] = [removed, touched].map(|count| count as u64);
    Answer { refusal: number, row, removed, touched, compared }
}
