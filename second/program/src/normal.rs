//! A word row as base and offset.

use crate::row::{Ref, Row};

#[derive(Clone, Copy, PartialEq, Eq, Debug)]
pub enum Base {
    Nothing,
    One(Ref),
    Sum(Ref, Ref),
    Difference(Ref, Ref),
    Negative(Ref),
}

#[derive(Clone, Copy, PartialEq, Eq, Debug)]
pub struct Normal {
    pub base: Base,
    pub offset: u64,
}

impl Normal {
    /// What result row `number` says of itself. An array row has no base; the check keeps
    /// references to words from naming one.
    pub fn of(number: Ref, row: Row) -> Normal {
        let (base, offset) = match row {
            Row::Const { k } => (Base::Nothing, k),
            Row::Shift { a, k } => (Base::One(a), k),
            Row::Sum { a, b, k } => (Base::Sum(a, b), k),
            Row::Diff { a, b, k } => (Base::Difference(a, b), k),
            Row::Neg { a, k } => (Base::Negative(a), k),
            Row::Var { .. } | Row::Read { .. } | Row::Fresh | Row::Write { .. } => {
                (Base::One(number), 0)
            }
        };
        Normal { base, offset }
    }

    /// The value of a row whose own base is nothing. A SHIFT of a CONST is not constant.
    pub fn constant(self) -> Option<u64> {
        (self.base == Base::Nothing).then_some(self.offset)
    }

    pub fn written(self) -> Row {
        let k = self.offset;
        match self.base {
            Base::Nothing => Row::Const { k },
            Base::One(a) => Row::Shift { a, k },
            Base::Sum(a, b) => Row::Sum { a, b, k },
            Base::Difference(a, b) => Row::Diff { a, b, k },
            Base::Negative(a) => Row::Neg { a, k },
        }
    }
}
