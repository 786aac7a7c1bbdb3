//! One long chain of stores at one base, and reads past them.

use second::{Row, Width};

/// A variable, an array, then stores at the base plus 1, 2, 3 and so on; the last quarter of
/// the rows reads the oldest places, so that each read passes nearly all the stores.
pub fn rows(width: Width, count: usize) -> Vec<Row> {
    let mut rows = vec![Row::Var { name: 0, low: 0, high: width.largest() }, Row::Fresh];
    rows.truncate(count);
    let mut memory = 1;
    let mut places = Vec::new();
    while rows.len() + 2 <= count / 4 * 3 {
        let k = (places.len() as u64 + 1) & width.largest();
        places.push(rows.len());
        rows.push(Row::Shift { a: 0, k });
        rows.push(Row::Write { array: memory, index: rows.len() - 1, value: 0 });
        memory = rows.len() - 1;
    }
    let mut oldest = 0;
    while rows.len() < count {
        let index = places.get(oldest % places.len().max(1)).copied().unwrap_or(0);
        rows.push(Row::Read { array: memory, index });
        oldest += 1;
    }
    rows
}
