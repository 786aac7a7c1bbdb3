//! Tables as text: what `show`, `why` and `compare` print, and the row language the example tables
//! are written in.

use crate::bytes::{numbers, sources, table_bytes, table_length, MOST_ROWS};
use crate::check::{check_header, check_rows};
use crate::row::{Ref, Row};
use crate::word::Width;
use crate::{ask, run, why, Answer, HIGHEST_LIMIT};
use std::io::{self, Read};

/// Room for every list: 256 bytes for each of at most 1,023 stores compared, and 256 more.
pub const LONGEST_LIST: usize = 256 * MOST_ROWS;

/// The table on standard input, or one byte more than the longest table, which is seen to be
/// too long.
pub fn read_table() -> io::Result<Vec<u8>> {
    let mut table = Vec::new();
    let most = table_length(MOST_ROWS) as u64 + 1;
    io::stdin().lock().take(most).read_to_end(&mut table)?;
    Ok(table)
}

/// What `show` prints for a table, with this limit on what its reads compare.
pub fn shown(table: &[u8], limit: u64) -> String {
    let mut result = vec![0; table.len()];
    let answer = run(table, &mut result, limit);
    if answer.refusal != 0 {
        return refusal_line(answer);
    }
    let header = check_header(&result).expect("a result has its table's header");
    let rows = check_rows(&result, header).expect("a result is well formed");
    let mut text = format!("width {} rows {}\n", header.width.bits(), header.rows);
    for (number, (row, source)) in rows.into_iter().zip(sources(&result)).enumerate() {
        text += &row_line(number, row, source);
    }
    text
}

/// What `why` prints for a row of a table.
pub fn listed(table: &[u8], row: u64) -> String {
    let (mut result, mut list) = (vec![0; table.len()], vec![0; LONGEST_LIST]);
    let listing = why(table, &mut result, row, &mut list);
    if listing.answer.refusal != 0 {
        return refusal_line(listing.answer);
    }
    list.truncate(listing.length as usize);
    String::from_utf8(list).expect("a list is text")
}

/// What `compare` prints for two rows of a table: a run, then a question over what it left. A refusal
/// is the question's own, also where the run was refused.
pub fn compared(table: &[u8], first: u64, second: u64) -> String {
    let mut result = vec![0; table.len()];
    run(table, &mut result, HIGHEST_LIMIT);
    let comparison = ask(table, &result, first, second);
    if comparison.answer.refusal != 0 {
        return refusal_line(comparison.answer);
    }
    format!("rows {first} and {second}: {}, {}\n", comparison.relation(), comparison.reason)
}

pub fn row_line(number: Ref, row: Row, source: u32) -> String {
    let (kind, [a, b, c], [k, h]) = numbers(row);
    format!("{number} {kind} {a} {b} {c} {k} {h} {source}\n")
}

fn refusal_line(answer: Answer) -> String {
    format!("refused {} row {}\n", answer.refusal, answer.row)
}

/// A table from `width 8` and rows such as `SHIFT 0 248 @6`, each on a line or ended by a semicolon;
/// `#` begins a remark. `@` and the instruction number end a row; without them it is 0. A VAR begins
/// with its name, or has none. Nothing is checked but the words and the width, so that refused tables
/// can be written too.
pub fn packed(text: &str) -> Result<Vec<u8>, String> {
    let mut width = None;
    let (mut rows, mut sources) = (Vec::new(), Vec::new());
    let lines = text.lines().map(|line| line.split('#').next().unwrap_or(""));
    for item in lines.flat_map(|line| line.split(';')) {
        let words: Vec<&str> = item.split_whitespace().collect();
        let fault = || format!("not understood: {item}");
        match words[..] {
            [] => {}
            ["width", bits] => {
                width = Some(bits.parse().ok().and_then(Width::new).ok_or_else(fault)?)
            }
            [name, ref fields @ ..] => {
                let (row, source) = row(name, fields).ok_or_else(fault)?;
                rows.push(row);
                sources.push(source);
            }
        }
    }
    Ok(table_bytes(width.ok_or("no width given")?, &rows, &sources))
}

/// A row and its instruction number.
fn row(name: &str, fields: &[&str]) -> Option<(Row, u32)> {
    let (source, fields) = match fields {
        [fields @ .., last] if last.starts_with('@') => (last[1..].parse().ok()?, fields),
        _ => (0, fields),
    };
    let values: Vec<u64> = fields.iter().map(|word| word.parse().ok()).collect::<Option<_>>()?;
    Some((unnumbered(name, &values)?, source))
}

fn unnumbered(name: &str, values: &[u64]) -> Option<Row> {
    let reference = |i: usize| values[i] as usize;
    Some(match (name, values.len()) {
        ("CONST", 1) => Row::Const { k: values[0] },
        ("VAR", 2) => Row::Var { name: 0, low: values[0], high: values[1] },
        ("VAR", 3) => {
            Row::Var { name: values[0].try_into().ok()?, low: values[1], high: values[2] }
        }
        ("SHIFT", 2) => Row::Shift { a: reference(0), k: values[1] },
        ("SUM", 3) => Row::Sum { a: reference(0), b: reference(1), k: values[2] },
        ("DIFF", 3) => Row::Diff { a: reference(0), b: reference(1), k: values[2] },
        ("NEG", 2) => Row::Neg { a: reference(0), k: values[1] },
        ("READ", 2) => Row::Read { array: reference(0), index: reference(1) },
        ("FRESH", 0) => Row::Fresh,
        ("WRITE", 3) => {
            Row::Write { array: reference(0), index: reference(1), value: reference(2) }
        }
        _ => return None,
    })
}
