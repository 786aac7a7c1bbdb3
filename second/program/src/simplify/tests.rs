//! Walks that may compare only so many stores, and what is counted of them.

use crate::bytes::{place, row_bytes};
use crate::row::Row;
use crate::text::packed;
use crate::{ask, edit, run, why, Answer, HIGHEST_LIMIT};

/// Four stores at the base plus 1, 2, 3 and 4; reads at plus 1, plus 4, plus 9, of the FRESH and at
/// another base, all of them at rows 10 to 14.
const CHAIN: &str = "width 8; VAR 0 9; FRESH; SHIFT 0 1; WRITE 1 2 0; SHIFT 0 2; WRITE 3 4 0; \
    SHIFT 0 3; WRITE 5 6 0; SHIFT 0 4; WRITE 7 8 0;";
const READS: &str = "READ 9 2; READ 9 8; SHIFT 0 9; READ 9 12; READ 1 2; VAR 0 9; READ 9 15";

fn chain(last: &str) -> Vec<u8> {
    packed(&format!("{CHAIN} {last}")).expect("rows as text")
}

fn within(table: &[u8], limit: u64) -> (Answer, Vec<u8>) {
    let mut result = vec![0; table.len()];
    (run(table, &mut result, limit), result)
}

#[test]
fn a_read_stops_where_it_stands() {
    for (limit, removed, compared, rows) in [
        (0, 0, 0, "READ 9 2; READ 9 8; SHIFT 0 9; READ 9 12; READ 1 2; VAR 0 9; READ 9 15"),
        (1, 1, 4, "READ 7 2; SHIFT 0 0; SHIFT 0 9; READ 7 12; READ 1 2; VAR 0 9; READ 9 15"),
        (2, 1, 6, "READ 5 2; SHIFT 0 0; SHIFT 0 9; READ 5 12; READ 1 2; VAR 0 9; READ 9 15"),
        (3, 1, 8, "READ 3 2; SHIFT 0 0; SHIFT 0 9; READ 3 12; READ 1 2; VAR 0 9; READ 9 15"),
        (4, 2, 10, "SHIFT 0 0; SHIFT 0 0; SHIFT 0 9; READ 1 12; READ 1 2; VAR 0 9; READ 9 15"),
        (5, 2, 10, "SHIFT 0 0; SHIFT 0 0; SHIFT 0 9; READ 1 12; READ 1 2; VAR 0 9; READ 9 15"),
        (1024, 2, 10, "SHIFT 0 0; SHIFT 0 0; SHIFT 0 9; READ 1 12; READ 1 2; VAR 0 9; READ 9 15"),
    ] {
        let (answer, result) = within(&chain(READS), limit);
        let expected = Answer { refusal: 0, row: 0, removed, touched: 17, compared };
        assert_eq!((answer, result), (expected, chain(rows)), "limit {limit}");
    }
}

/// A WRITE skips a store at its index with any limit, and the index and element of a read that may
/// compare nothing still go by their plain names.
#[test]
fn what_is_no_comparison_of_a_read() {
    let rows = "width 8; VAR 0 9; FRESH; SHIFT 0 0; WRITE 1 0 0; WRITE 3 2 2;";
    let [table, result] = ["READ 4 2", "READ 4 0"].map(|read| format!("{rows} {read}"));
    let [table, result] = [table, result.replace("WRITE 3 2 2", "WRITE 1 0 0")]
        .map(|text| packed(&text).expect("rows as text"));
    let (answer, given) = within(&table, 0);
    assert_eq!((answer.compared, given), (0, result));
}

/// An edit counts the reads that it works out anew, over whatever was kept.
#[test]
fn an_edit_counts_what_it_works_out() {
    let table = chain(READS);
    let edited = |limit: u64, other: u64, row: usize, new: Row| {
        let (mut table, mut kept) = (table.clone(), within(&table, limit).1);
        let answer = edit(&mut table, &mut kept, row as u64, &row_bytes(new, 0), other);
        assert_eq!(answer.refusal, 0);
        (answer, table, kept)
    };
    for limit in [0, 1, 2, 3, 4, 1024] {
        // Row 15 and its read alone, which then passes all the stores.
        let (answer, table, kept) = edited(limit, limit, 15, Row::Const { k: 200 });
        assert_eq!((answer.touched, answer.compared), (2, limit.min(4)), "limit {limit}");
        assert_eq!(kept, within(&table, limit).1, "a fresh run, limit {limit}");
        // The base: all rows but the FRESH and the other variable.
        let (answer, table, kept) = edited(limit, limit, 0, Row::Var { name: 0, low: 1, high: 9 });
        assert_eq!((answer.touched, answer.compared), (15, within(&table, limit).0.compared));
        assert_eq!(kept, within(&table, limit).1, "a fresh run, limit {limit}");
    }
    // At another limit the touched row alone is worked out at it.
    let (answer, _, kept) = edited(1, 3, 12, Row::Shift { a: 0, k: 9 });
    assert_eq!((answer.touched, answer.compared), (2, 3));
    let rows = "READ 7 2; SHIFT 0 0; SHIFT 0 9; READ 3 12; READ 1 2; VAR 0 9; READ 9 15";
    assert_eq!(kept, chain(rows));
}

#[test]
fn limits_above_the_highest_are_refused_behind_the_replacement_and_before_the_rows() {
    let sound = chain(READS);
    let mut faulty = sound.clone();
    faulty[place(16)][0] = 0;
    let refused = |number| Answer { refusal: number, row: 0, removed: 0, touched: 0, compared: 0 };
    for limit in [1025, 1 << 10 | 1 << 32, 1 << 32, 1 << 63, u64::MAX] {
        for table in [&sound, &faulty] {
            assert_eq!(within(table, limit), (refused(19), vec![0; table.len()]));
            assert_eq!(run(table, &mut [0; 9], limit), refused(6));
            let (mut lent, mut kept) = (table.clone(), vec![0; table.len()]);
            assert_eq!(edit(&mut lent, &mut kept, 17, &[], limit), refused(7));
            assert_eq!(edit(&mut lent, &mut kept, 16, &[], limit), refused(8));
            assert_eq!(edit(&mut lent, &mut kept, 16, &sound[place(16)], limit), refused(19));
            assert_eq!((&lent, kept), (table, vec![0; table.len()]));
        }
    }
    let faulty_row = Answer { row: 16, ..refused(9) };
    assert_eq!(within(&faulty, HIGHEST_LIMIT).0, faulty_row);
}

#[test]
fn others_do_not_count() {
    let (table, mut space) = (chain(READS), vec![0; 2000]);
    let mut result = within(&table, 2).1;
    assert_eq!(ask(&table, &result, 10, 11).answer.compared, 0);
    let listing = why(&table, &mut result, 10, &mut space);
    assert_eq!((listing.answer.refusal, listing.answer.compared), (0, 0));
    assert_eq!(result, within(&table, HIGHEST_LIMIT).1);
}
