//! What must hold of every accepted edit.

use crate::leads::{firsts, worked_out_anew};
use crate::meaning::decoded;
use crate::pair::{hex, Pair};
use crate::recount::Left;
use second::bytes::{place, row_bytes, sources};
use second::{Answer, Ref, Row};

/// An accepted edit: the table before it, as far as it is known, what was lent before and after, and
/// the answer.
pub struct Edited<'e> {
    pub row: Ref,
    pub rows_before: &'e [Row],
    pub table: &'e [u8],
    pub kept_before: &'e [u8],
    pub kept: &'e [u8],
    pub limit: u64,
    pub answer: Answer,
}

impl Edited<'_> {
    /// With the table's own kept result, made with the same limit.
    pub fn is_a_fresh_run(&self, pair: &mut Pair) {
        let mut fresh = self.kept_before.to_vec();
        second::run(self.table, &mut fresh, self.limit);
        pair.expect(fresh == self.kept, || self.described("is not a fresh run"));
    }

    fn anew(&self) -> Vec<bool> {
        worked_out_anew(self.rows_before, &decoded(self.table).1, self.row)
    }

    /// With any kept result: the rows worked out anew are counted, and the stores that the reads among
    /// them are compared with, and all other rows keep their bytes.
    pub fn leaves_others(&self, pair: &mut Pair) {
        let anew = self.anew();
        for row in (0..anew.len()).filter(|row| !anew[*row]) {
            let stays = self.kept[place(row)] == self.kept_before[place(row)];
            pair.expect(stays, || self.described(&format!("changed row {row}")));
        }
        let count = anew.iter().filter(|anew| **anew).count() as u64;
        let Answer { touched, compared, .. } = self.answer;
        pair.expect(touched == count, || {
            self.described(&format!("touched {touched} rows, not {count}"))
        });
        let rows = decoded(self.table).1;
        let reads = rows.iter().zip(&anew).filter(|(row, anew)| **anew && row.is_read()).count();
        pair.expect(compared <= self.limit * reads as u64, || {
            self.described(&format!("compared {compared} stores with {reads} reads"))
        });
        let Edited { table, kept: result, limit, .. } = *self;
        Left { table, result, limit, compared }.by(pair, |row| anew[row]);
    }

    /// With any kept result: a variable worked out anew whose name a row above has is SHIFT by 0 of
    /// the first that has it.
    pub fn makes_later_ones_the_first(&self, pair: &mut Pair) {
        let ((_, rows), anew) = (decoded(self.table), self.anew());
        let (firsts, sources) = (firsts(&rows), sources(self.table));
        for row in (0..rows.len()).filter(|row| anew[*row]) {
            let Some(name) = rows[row].name() else { continue };
            let first = firsts[&name];
            let right = row_bytes(Row::Shift { a: first, k: 0 }, sources[row]);
            pair.expect(row == first || self.kept[place(row)] == right, || {
                self.described(&format!("did not make row {row} the first of its name, {first}"))
            });
        }
    }

    fn described(&self, fault: &str) -> String {
        let Edited { row, limit, table, .. } = self;
        format!("edit of row {row}, limit {limit}, {fault}: edited table {}", hex(table))
    }
}
