//! From bytes to decoded rows, or the number of the first fault.

use crate::bytes::{place, table_length, Fields, HEADER, HEADER_MARK, MOST_ROWS, ROW_MARK};
use crate::names::first_of_name;
use crate::row::{Row, Sort};
use crate::word::Width;

#[derive(Clone, Copy, PartialEq, Eq, Debug)]
pub struct Refused {
    pub number: u64,
    pub row: u64,
}

/// A refusal that blames no row.
pub fn refused(number: u64) -> Refused {
    Refused { number, row: 0 }
}

#[derive(Clone, Copy)]
pub struct Header {
    pub width: Width,
    pub rows: usize,
}

/// Refusals 1 to 5.
pub fn check_header(table: &[u8]) -> Result<Header, Refused> {
    let Some(head) = table.first_chunk::<HEADER>() else {
        return Err(refused(1));
    };
    if head[..2] != HEADER_MARK || head[3] != 0 {
        return Err(refused(2));
    }
    let width = Width::new(head[2]).ok_or(refused(3))?;
    let rows = u16::from_le_bytes([head[4], head[5]]) as usize;
    if rows > MOST_ROWS {
        return Err(refused(4));
    }
    if table.len() != table_length(rows) {
        return Err(refused(5));
    }
    Ok(Header { width, rows })
}

/// Refusals 9 to 15 and 18, of a table whose header was accepted.
pub fn check_rows(table: &[u8], header: Header) -> Result<Vec<Row>, Refused> {
    let mut rows = Vec::with_capacity(header.rows);
    for number in 0..header.rows {
        let fields = Fields::of(table[place(number)].try_into().unwrap());
        let row = check_row(&fields, header.width, &rows)
            .map_err(|fault| Refused { number: fault, row: number as u64 })?;
        rows.push(row);
    }
    Ok(rows)
}

/// What a kind has in the place of a reference.
#[derive(Clone, Copy, PartialEq, Eq)]
enum Use {
    Nothing,
    Name,
    Row(Sort),
}

/// Which fields a kind uses: the references a, b, c, and the values k, h.
struct Uses {
    references: [Use; 3],
    values: [bool; 2],
}

fn uses(kind: u8) -> Option<Uses> {
    use Use::{Name, Nothing};
    const WORD: Use = Use::Row(Sort::Word);
    const ARRAY: Use = Use::Row(Sort::Array);
    let (references, values) = match kind {
        1 => ([Nothing, Nothing, Nothing], [true, false]),
        2 => ([Name, Nothing, Nothing], [true, true]),
        3 | 6 => ([WORD, Nothing, Nothing], [true, false]),
        4 | 5 => ([WORD, WORD, Nothing], [true, false]),
        7 => ([ARRAY, WORD, Nothing], [false, false]),
        8 => ([Nothing, Nothing, Nothing], [false, false]),
        9 => ([ARRAY, WORD, WORD], [false, false]),
        _ => return None,
    };
    Some(Uses { references, values })
}

/// The row behind the rows `earlier`, or its lowest fault.
fn check_row(fields: &Fields, width: Width, earlier: &[Row]) -> Result<Row, u64> {
    if fields.mark != ROW_MARK || fields.zero != 0 {
        return Err(9);
    }
    let uses = uses(fields.kind).ok_or(10u64)?;
    let references = || fields.references.iter().zip(uses.references);
    let named = || {
        references().filter_map(|(r, used)| match used {
            Use::Row(sort) => Some((*r as usize, sort)),
            Use::Name | Use::Nothing => None,
        })
    };
    let values = || fields.values.iter().zip(uses.values);

    if references().any(|(r, used)| used == Use::Nothing && *r != 0)
        || values().any(|(v, used)| !used && *v != 0)
    {
        return Err(11);
    }
    if values().any(|(v, used)| used && !width.holds(*v)) {
        return Err(12);
    }
    if named().any(|(r, _)| r >= earlier.len()) {
        return Err(13);
    }
    if named().any(|(r, sort)| earlier[r].sort() != sort) {
        return Err(14);
    }
    let row = decoded(fields);
    if matches!(row, Row::Var { low, high, .. } if low > high) {
        return Err(15);
    }
    // Two VARs of one name: what may differ are their bounds.
    if first_of_name(earlier, row).is_some_and(|first| earlier[first] != row) {
        return Err(18);
    }
    Ok(row)
}

fn decoded(fields: &Fields) -> Row {
    let [a, b, c] = fields.references.map(usize::from);
    let [k, h] = fields.values;
    match fields.kind {
        1 => Row::Const { k },
        2 => Row::Var { name: fields.references[0], low: k, high: h },
        3 => Row::Shift { a, k },
        4 => Row::Sum { a, b, k },
        5 => Row::Diff { a, b, k },
        6 => Row::Neg { a, k },
        7 => Row::Read { array: a, index: b },
        8 => Row::Fresh,
        9 => Row::Write { array: a, index: b, value: c },
        _ => unreachable!("the kind was checked"),
    }
}
