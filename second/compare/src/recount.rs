//! The stores that reads were compared with, counted from what a call left: each read goes its way
//! once more over the result, and the library is asked what is known at each store.

use crate::meaning::decoded;
use crate::pair::{hex, Pair};
use second::check::{check_header, check_rows};
use second::Row;
use stezkoun::numbers;

/// Each store takes a question, so larger tables are left out.
const MOST_ROWS_RECOUNTED: usize = 32;

/// What a call answered and left that worked out some rows of a table.
pub struct Left<'l> {
    pub table: &'l [u8],
    pub result: &'l [u8],
    pub limit: u64,
    pub compared: u64,
}

impl Left<'_> {
    /// Of a fresh run, which works out every row.
    pub fn by_run(&self, pair: &mut Pair) {
        self.by(pair, |_| true);
    }

    /// The number answered is that of the reads worked out, and a read with none left to compare stands
    /// at the store where it came to that. A kept result that is no table any more is left out.
    pub fn by(&self, pair: &mut Pair, worked_out: impl Fn(usize) -> bool) {
        let Left { table, limit, compared, .. } = *self;
        let (result, (_, rows)) = (&self.result[..table.len()], decoded(table));
        let standing = check_header(result).and_then(|header| check_rows(result, header));
        let Some(standing) = standing.ok().filter(|_| rows.len() <= MOST_ROWS_RECOUNTED) else {
            return;
        };
        let mut all = 0;
        for (number, row) in rows.iter().enumerate().filter(|(number, _)| worked_out(*number)) {
            let Row::Read { array: mut reached, index } = *row else { continue };
            let mut stores = 0;
            while let Row::Write { array, index: at, .. } = standing[reached] {
                if stores == limit {
                    let stands =
                        matches!(standing[number], Row::Read { array, .. } if array == reached);
                    pair.expect(stands, || self.described(&format!("row {number} went elsewhere")));
                    break;
                }
                stores += 1;
                let asked = numbers::ask(table, result, at as u64, index as u64);
                if asked.relation != stezkoun::Relation::Apart as u64 {
                    break;
                }
                reached = array;
            }
            all += stores;
        }
        pair.expect(all == compared, || self.described(&format!("{compared} compared, not {all}")));
    }

    fn described(&self, fault: &str) -> String {
        let Left { table, result, limit, .. } = self;
        format!("{fault}: limit {limit}, table {}, result {}", hex(table), hex(result))
    }
}
