//! The rules. Rows are settled in ascending order, so each rule finds the rows it names final.

use crate::check::Header;
use crate::normal::{Base, Normal};
use crate::range::Range;
use crate::reason::{Reason, Relation};
use crate::row::{Ref, Row};
use crate::watch::{Event, Watch};
use crate::word::Width;

/// Where a read's walk ended.
pub enum End {
    Found { element: Ref },
    Stands { on: Ref },
}

pub struct Simplifier<'w, W: Watch> {
    width: Width,
    rows: Vec<Row>,
    /// One for each settled row, so that none is worked out twice; an array's is never asked for.
    ranges: Vec<Range>,
    /// How many stores a read compares at most, and how many all reads worked out have compared.
    limit: u64,
    compared: u64,
    watch: &'w mut W,
}

impl<'w, W: Watch> Simplifier<'w, W> {
    pub fn new(header: Header, limit: u64, watch: &'w mut W) -> Self {
        let Header { width, rows: room } = header;
        let (rows, ranges) = (Vec::with_capacity(room), Vec::with_capacity(room));
        Simplifier { width, rows, ranges, limit, compared: 0, watch }
    }

    pub fn rows(&self) -> &[Row] {
        &self.rows
    }

    pub fn compared(&self) -> u64 {
        self.compared
    }

    /// Takes `row` as the next result row.
    pub fn settle(&mut self, row: Row) {
        let range = self.range(row);
        self.rows.push(row);
        self.ranges.push(range);
    }

    /// Takes as the next result row a VAR of a name that row `first` was the first to have.
    pub fn settle_as_first(&mut self, first: Ref) {
        self.watch.saw(match self.rows[first] {
            Row::Var { .. } => Event::NameSeenAgain,
            _ => Event::NameSeenAgainOverOther,
        });
        self.settle(Row::Shift { a: first, k: 0 });
    }

    /// Works the next row out by its rule.
    pub fn work_out(&mut self, row: Row) {
        let row = match row {
            Row::Const { .. } | Row::Var { .. } | Row::Fresh => row,
            Row::Shift { a, k } => self.shift(a, k),
            Row::Sum { a, b, k } => self.sum(a, b, k),
            Row::Diff { a, b, k } => self.diff(a, b, k),
            Row::Neg { a, k } => self.neg(a, k),
            Row::Read { array, index } => self.read(array, index),
            Row::Write { array, index, value } => self.write(array, index, value),
        };
        self.settle(row);
    }

    /// Each step of a walk asks this; as a call it would cost the longest walks a third.
    #[inline(always)]
    pub fn reason(&mut self, first: Ref, second: Ref) -> Reason {
        let (one, other) = (self.normal(first), self.normal(second));
        if one == other {
            return Reason::SamePlace;
        }
        if one.base == other.base {
            self.watch.saw(Event::ApartByBase);
            return Reason::SharedBase { offsets: [one.offset, other.offset] };
        }
        let ranges = [self.ranges[first], self.ranges[second]];
        if ranges[0].shares_a_number(ranges[1]) {
            return Reason::Undecided;
        }
        let in_pieces = ranges.iter().any(|range| range.second.is_some());
        self.watch.saw(if in_pieces { Event::ApartByPieces } else { Event::ApartByRange });
        Reason::SeparateRanges { ranges }
    }

    fn normal(&self, word: Ref) -> Normal {
        Normal::of(word, self.rows[word])
    }

    fn same(&self, first: Ref, second: Ref) -> bool {
        self.normal(first) == self.normal(second)
    }

    fn plain_name(&mut self, word: Ref) -> Ref {
        match self.rows[word] {
            Row::Shift { a, k: 0 } => {
                self.watch.saw(Event::PlainNameTaken);
                a
            }
            _ => word,
        }
    }

    fn shift(&mut self, a: Ref, k: u64) -> Row {
        let Normal { base, offset } = self.normal(a);
        self.watch.saw(match base {
            Base::Nothing => Event::ShiftOfConstant,
            Base::One(_) => Event::ShiftOfOne,
            _ => Event::ShiftOfCompound,
        });
        Normal { base, offset: self.width.add(offset, k) }.written()
    }

    /// An operand that is not constant, as a row and an offset from it.
    fn opened(&mut self, operand: Ref) -> (Ref, u64) {
        match self.normal(operand) {
            Normal { base: Base::One(x), offset } => (x, offset),
            _ => {
                self.watch.saw(Event::OpenedCompound);
                (operand, 0)
            }
        }
    }

    fn sum(&mut self, a: Ref, b: Ref, k: u64) -> Row {
        let width = self.width;
        if let Some(p) = self.normal(a).constant() {
            self.watch.saw(Event::SumLeftConstant);
            return self.shift(b, width.add(p, k));
        }
        if let Some(q) = self.normal(b).constant() {
            self.watch.saw(Event::SumRightConstant);
            return self.shift(a, width.add(q, k));
        }
        let ((x, p), (y, q)) = (self.opened(a), self.opened(b));
        self.watch.saw(if x <= y { Event::SumInOrder } else { Event::SumSwapped });
        Row::Sum { a: x.min(y), b: x.max(y), k: width.add(width.add(p, q), k) }
    }

    fn diff(&mut self, a: Ref, b: Ref, k: u64) -> Row {
        let width = self.width;
        let (left, right) = (self.normal(a), self.normal(b));
        // The rows' own bases are compared, before any opening.
        if left.base == right.base {
            self.watch.saw(Event::DiffEqualBases);
            return Row::Const { k: width.add(width.sub(left.offset, right.offset), k) };
        }
        if let Some(q) = right.constant() {
            self.watch.saw(Event::DiffRightConstant);
            return self.shift(a, width.sub(k, q));
        }
        if let Some(p) = left.constant() {
            self.watch.saw(Event::DiffLeftConstant);
            return self.neg(b, width.add(k, p));
        }
        let ((x, p), (y, q)) = (self.opened(a), self.opened(b));
        self.watch.saw(if x == y { Event::DiffOpenedEqual } else { Event::DiffOpened });
        Row::Diff { a: x, b: y, k: width.add(width.sub(p, q), k) }
    }

    fn neg(&mut self, a: Ref, k: u64) -> Row {
        let Normal { base, offset } = self.normal(a);
        let rest = self.width.sub(k, offset);
        let (event, row) = match base {
            Base::Nothing => (Event::NegOfNothing, Row::Const { k: rest }),
            Base::One(x) => (Event::NegOfOne, Row::Neg { a: x, k: rest }),
            Base::Negative(x) => (Event::NegOfNegative, self.shift(x, rest)),
            Base::Difference(x, y) => (Event::NegOfDifference, Row::Diff { a: y, b: x, k: rest }),
            // The sum is named, not opened, so its offset stays in it.
            Base::Sum(..) => (Event::NegOfSum, Row::Neg { a, k }),
        };
        self.watch.saw(event);
        row
    }

    fn read(&mut self, from: Ref, index: Ref) -> Row {
        let mut stores = 0;
        let end = self.walk(from, index, |_, _, _| stores += 1);
        self.compared += stores;
        match end {
            End::Found { element } => self.shift(element, 0),
            End::Stands { on } => Row::Read { array: on, index: self.plain_name(index) },
        }
    }

    /// The walk of a read at `index`: `compared` is told each store, its index and the reason.
    pub fn walk(
        &mut self, from: Ref, index: Ref, mut compared: impl FnMut(Ref, Ref, Reason),
    ) -> End {
        let mut array = from;
        let mut left = self.limit;
        let (event, end) = loop {
            let Row::Write { array: below, index: at, value } = self.rows[array] else {
                break (Event::ReadStoppedAtFresh, End::Stands { on: array });
            };
            if left == 0 {
                break (Event::ReadStoppedSpent, End::Stands { on: array });
            }
            left -= 1;
            let reason = self.reason(at, index);
            compared(array, at, reason);
            match reason.relation() {
                Relation::Same => break (Event::ReadMetSame, End::Found { element: value }),
                Relation::Apart => array = below,
                Relation::NotKnown => {
                    break (Event::ReadStoppedUndecided, End::Stands { on: array });
                }
            }
        };
        self.watch_walk(from, array, event, left);
        end
    }

    fn watch_walk(&mut self, from: Ref, reached: Ref, end: Event, left: u64) {
        self.watch.saw(end);
        if from != reached {
            self.watch.saw(Event::ReadPassedStores);
        }
        match end {
            Event::ReadMetSame if left == 0 => self.watch.saw(Event::ReadMetSameLast),
            Event::ReadStoppedUndecided if left == 0 => self.watch.saw(Event::ReadUndecidedLast),
            Event::ReadStoppedAtFresh if left == 0 => self.watch.saw(Event::ReadSpentAtFresh),
            _ => {}
        }
    }

    fn write(&mut self, on: Ref, index: Ref, value: Ref) -> Row {
        let mut array = on;
        match self.rows[on] {
            Row::Write { array: below, index: at, .. } if self.same(at, index) => {
                array = below;
                self.watch.saw(Event::WriteSkipped);
                if matches!(self.rows[below], Row::Write { index: at, .. } if self.same(at, index))
                {
                    self.watch.saw(Event::WriteSkippedOntoSame);
                }
            }
            _ => self.watch.saw(Event::WriteKept),
        }
        Row::Write { array, index: self.plain_name(index), value: self.plain_name(value) }
    }

    fn range(&mut self, row: Row) -> Range {
        match row {
            Row::Const { k } => Range::only(k),
            Row::Var { low, high, .. } => Range::of(low, high),
            Row::Read { .. } | Row::Fresh | Row::Write { .. } => Range::full(self.width),
            Row::Shift { a, k } => self.plus(self.ranges[a], Range::only(k)),
            Row::Sum { a, b, k } => {
                let both = self.plus(self.ranges[a], self.ranges[b]);
                self.plus(both, Range::only(k))
            }
            Row::Diff { a, b, k } => {
                let negated = self.ranges[b].negated(self.width, self.watch);
                let both = self.plus(self.ranges[a], negated);
                self.plus(both, Range::only(k))
            }
            Row::Neg { a, k } => {
                let negated = self.ranges[a].negated(self.width, self.watch);
                self.plus(Range::only(k), negated)
            }
        }
    }

    fn plus(&mut self, one: Range, other: Range) -> Range {
        one.plus(other, self.width, self.watch)
    }
}

#[cfg(test)]
mod tests;
