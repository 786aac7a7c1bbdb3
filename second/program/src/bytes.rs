//! Where the fields of a header and of a row lie, and how decoded rows become bytes.

use crate::row::Row;
use crate::word::Width;

pub const HEADER: usize = 6;
pub const ROW: usize = 30;
pub const MOST_ROWS: usize = 1024;
pub const HEADER_MARK: [u8; 2] = [0x46, 0x54];
pub const ROW_MARK: [u8; 2] = [0x52, 0x4f];

// Where the fields of a row begin, behind its mark.
pub const KIND: usize = 2;
pub const ZERO: usize = 3;
pub const REFERENCES: [usize; 3] = [4, 6, 8];
pub const VALUES: [usize; 2] = [10, 18];
pub const SOURCE: usize = 26;

pub fn table_length(rows: usize) -> usize {
    HEADER + ROW * rows
}

/// The bytes that hold row `number`.
pub fn place(number: usize) -> std::ops::Range<usize> {
    table_length(number)..table_length(number + 1)
}

/// A row's fields as they stand in the bytes, unchecked.
pub struct Fields {
    pub mark: [u8; 2],
    pub kind: u8,
    pub zero: u8,
    pub references: [u16; 3],
    pub values: [u64; 2],
    /// The number of the instruction that recorded the row; any will do.
    pub source: u32,
}

impl Fields {
    pub fn of(bytes: &[u8; ROW]) -> Fields {
        fn field<const N: usize>(bytes: &[u8; ROW], at: usize) -> [u8; N] {
            bytes[at..at + N].try_into().unwrap()
        }
        Fields {
            mark: field(bytes, 0),
            kind: bytes[KIND],
            zero: bytes[ZERO],
            references: REFERENCES.map(|at| u16::from_le_bytes(field(bytes, at))),
            values: VALUES.map(|at| u64::from_le_bytes(field(bytes, at))),
            source: u32::from_le_bytes(field(bytes, SOURCE)),
        }
    }
}

/// The instruction number of each row of a table.
pub fn sources(table: &[u8]) -> Vec<u32> {
    let rows = table[HEADER..].chunks_exact(ROW);
    rows.map(|row| Fields::of(row.try_into().unwrap()).source).collect()
}

/// Kind, references a, b, c and values k, h of a row.
pub fn numbers(row: Row) -> (u8, [usize; 3], [u64; 2]) {
    match row {
        Row::Const { k } => (1, [0, 0, 0], [k, 0]),
        Row::Var { name, low, high } => (2, [name.into(), 0, 0], [low, high]),
        Row::Shift { a, k } => (3, [a, 0, 0], [k, 0]),
        Row::Sum { a, b, k } => (4, [a, b, 0], [k, 0]),
        Row::Diff { a, b, k } => (5, [a, b, 0], [k, 0]),
        Row::Neg { a, k } => (6, [a, 0, 0], [k, 0]),
        Row::Read { array, index } => (7, [array, index, 0], [0, 0]),
        Row::Fresh => (8, [0, 0, 0], [0, 0]),
        Row::Write { array, index, value } => (9, [array, index, value], [0, 0]),
    }
}

pub fn row_bytes(row: Row, source: u32) -> [u8; ROW] {
    let (kind, references, values) = numbers(row);
    let mut bytes = [0; ROW];
    let mut put = |at: usize, field: &[u8]| bytes[at..at + field.len()].copy_from_slice(field);
    put(0, &ROW_MARK);
    put(KIND, &[kind]);
    for (at, reference) in REFERENCES.into_iter().zip(references) {
        put(at, &(reference as u16).to_le_bytes());
    }
    for (at, value) in VALUES.into_iter().zip(values) {
        put(at, &value.to_le_bytes());
    }
    put(SOURCE, &source.to_le_bytes());
    bytes
}

/// A table of rows and, in the same order, their instruction numbers.
pub fn table_bytes(width: Width, rows: &[Row], sources: &[u32]) -> Vec<u8> {
    assert_eq!(rows.len(), sources.len(), "a number for each row");
    let mut bytes = Vec::with_capacity(table_length(rows.len()));
    bytes.extend(HEADER_MARK);
    bytes.extend([width.bits(), 0]);
    bytes.extend((rows.len() as u16).to_le_bytes());
    for (row, source) in rows.iter().zip(sources) {
        bytes.extend(row_bytes(*row, *source));
    }
    bytes
}
