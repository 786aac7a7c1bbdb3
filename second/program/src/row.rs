//! Decoded rows.

/// The number of a row.
pub type Ref = usize;

#[derive(Clone, Copy, PartialEq, Eq, Debug)]
pub enum Sort {
    Word,
    Array,
}

/// A row. The name 0 of a variable is none.
#[derive(Clone, Copy, PartialEq, Eq, Debug)]
pub enum Row {
    Const { k: u64 },
    Var { name: u16, low: u64, high: u64 },
    Shift { a: Ref, k: u64 },
    Sum { a: Ref, b: Ref, k: u64 },
    Diff { a: Ref, b: Ref, k: u64 },
    Neg { a: Ref, k: u64 },
    Read { array: Ref, index: Ref },
    Fresh,
    Write { array: Ref, index: Ref, value: Ref },
}

impl Row {
    pub fn sort(self) -> Sort {
        match self {
            Row::Fresh | Row::Write { .. } => Sort::Array,
            _ => Sort::Word,
        }
    }

    pub fn is_read(self) -> bool {
        matches!(self, Row::Read { .. })
    }

    /// The name of a variable that has one.
    pub fn name(self) -> Option<u16> {
        match self {
            Row::Var { name, .. } if name != 0 => Some(name),
            _ => None,
        }
    }

    pub fn references(self) -> impl Iterator<Item = Ref> {
        let (named, count) = match self {
            Row::Const { .. } | Row::Var { .. } | Row::Fresh => ([0, 0, 0], 0),
            Row::Shift { a, .. } | Row::Neg { a, .. } => ([a, 0, 0], 1),
            Row::Sum { a, b, .. } | Row::Diff { a, b, .. } => ([a, b, 0], 2),
            Row::Read { array, index } => ([array, index, 0], 2),
            Row::Write { array, index, value } => ([array, index, value], 3),
        };
        named.into_iter().take(count)
    }
}
