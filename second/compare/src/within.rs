//! Limits, in tables small enough to be worked out by hand, or so regular that their numbers are known.

use crate::pair::{hex, Pair};
use crate::paper::{accepted, p1, refused, runs_within, table, P1_RESULT};
use second::bytes::{place, row_bytes};
use second::{Row, Width, HIGHEST_LIMIT};
use tables::random::Random;
use tables::sources::numbered;
use tables::stores::{passed, Told, INDEX_OF_READS};

pub fn cases(pair: &mut Pair) {
    pair.group = "stated limits".into();
    reads_that_hang_on_reads(pair);
    p1_and_p2(pair);
    every_bit(pair);
    for told in [Told::ByBase, Told::ByRanges] {
        for stores in [3, 4, 16, 64, 256, 510, 1000, 1019] {
            passing(pair, told, stores, 1020 - stores);
        }
    }
    most_of_one_and_two(pair);
}

/// docs/COST.md: the most comparisons with the limits 1 and 2.
fn most_of_one_and_two(pair: &mut Pair) {
    let width = Width::new(32).expect("a width");
    let mut removes_all = |rows: Vec<Row>, limit: u64, reads: usize| {
        let array = rows.len() - 1;
        let reads = [Row::Read { array, index: 1 }].repeat(reads);
        let (count, rows) = (reads.len() as u64, [rows, reads].concat());
        let table = numbered(&mut Random::new(pair.seed), width, &rows);
        runs_within(pair, &table, limit, accepted(count, 1024, limit * count), None);
    };
    let [zero, one] = [0, 1].map(|k| Row::Const { k });
    let store = |array, index| Row::Write { array, index, value: 1 };
    removes_all(vec![Row::Fresh, zero, store(0, 1)], 1, 1021);
    removes_all(vec![Row::Fresh, zero, one, store(0, 1), store(3, 2)], 2, 1019);
}

/// Tables of 1,024 rows whose reads pass all their stores: run, and the index of the reads moved, which
/// touches these alone.
fn passing(pair: &mut Pair, told: Told, stores: usize, reads: usize) {
    let width = Width::new(32).expect("a width");
    let rows = passed(width, told, stores, reads);
    let table = numbered(&mut Random::new(pair.seed), width, &rows);
    let index = match rows[INDEX_OF_READS] {
        Row::Shift { a, k } => Row::Shift { a, k: k + 1 },
        Row::Var { low, high, .. } => Row::Var { name: 0, low: low + 1, high },
        _ => unreachable!("a place"),
    };
    let index = row_bytes(index, 7);
    let (reads, all) = (reads as u64, stores as u64);
    for limit in [0, 1, 2, 64, 509, 510, 999, 1000, 1018, 1019, 1023, 1024] {
        let compared = reads * all.min(limit);
        runs_within(pair, &table, limit, accepted(0, 1024, compared), None);
        let (mut edited, mut kept) = (table.clone(), table.clone());
        second::run(&table, &mut kept, limit);
        let answer = pair.edit(&mut edited, &mut kept, INDEX_OF_READS as u64, &index, limit);
        pair.expect(answer == accepted(0, 1 + reads, compared), || {
            format!("{answer:?}, limit {limit}, of {stores} stores and {reads} reads")
        });
    }
    let room = 256 * (stores + 1);
    let listing = pair.why(&table, &mut table.clone(), 1023, &mut vec![0; room]);
    pair.expect(listing.answer == accepted(0, 1024, 0), || format!("{listing:?}"));
}

/// Row 6 is the index of row 7: where it is left a READ, the other is undecided at its first store.
fn reads_that_hang_on_reads(pair: &mut Pair) {
    let rows = "width 8; CONST 1; CONST 2; CONST 3; FRESH; WRITE 3 0 1; WRITE 4 1 2;";
    let [input, none, one, all] =
        ["READ 5 0; READ 5 6", "READ 5 0; READ 5 6", "READ 4 0; READ 5 6", "CONST 2; CONST 3"]
            .map(|reads| table(&format!("{rows} {reads}")));
    runs_within(pair, &input, 0, accepted(0, 8, 0), Some(&none));
    runs_within(pair, &input, 1, accepted(0, 8, 2), Some(&one));
    for limit in [2, 3, 1023, 1024] {
        runs_within(pair, &input, limit, accepted(2, 8, 3), Some(&all));
    }
    // A WRITE skips a store at its index whatever the limit, and names stay plain.
    let rows = "width 8; VAR 0 9; FRESH; SHIFT 0 0; WRITE 1 0 0;";
    let [input, none, one] =
        ["WRITE 3 2 2; READ 4 2", "WRITE 1 0 0; READ 4 0", "WRITE 1 0 0; SHIFT 0 0"]
            .map(|last| table(&format!("{rows} {last}")));
    runs_within(pair, &input, 0, accepted(0, 6, 0), Some(&none));
    runs_within(pair, &input, 1, accepted(1, 6, 1), Some(&one));
}

/// P1 with each limit, and P2's edit over its result with each other: of the reads it touches both.
fn p1_and_p2(pair: &mut Pair) {
    let rows = P1_RESULT.strip_suffix("CONST 7 @9;").expect("row 7 is the last");
    let rows_of_p2 = rows.replace("VAR 200 250", "VAR 0 250");
    let with = |rows: &str, reads: &str| table(&format!("{rows} {reads}"));
    let none = "READ 4 6 @9; READ 4 7 @12";
    let (none, none_of_p2) = (with(rows, none), with(&rows_of_p2, none));
    let one = with(rows, "CONST 7 @9; READ 1 7 @12");
    let one_of_p2 = with(&rows_of_p2, "CONST 7 @9; READ 4 7 @12");
    let wide = &none_of_p2[place(0)];

    for limit in [0, 1, 2, 3, 9, 1023, 1024] {
        let (result, answer) =
            if limit == 0 { (&none, accepted(0, 9, 0)) } else { (&one, accepted(1, 9, 2)) };
        runs_within(pair, &p1(), limit, answer, Some(result));
        for other in [0, 1, 2, 1023, 1024] {
            let (outcome, right) = if other == 0 {
                (&none_of_p2, accepted(0, 7, 0))
            } else {
                (&one_of_p2, accepted(1, 7, 2))
            };
            let (mut edited, mut kept) = (p1(), result.clone());
            let answer = pair.edit(&mut edited, &mut kept, 0, wide, other);
            pair.expect(answer == right && kept == *outcome, || {
                format!("{answer:?} and {} for P2, limits {limit} and {other}", hex(&kept))
            });
        }
    }
}

/// Each bit of a limit counts.
fn every_bit(pair: &mut Pair) {
    let (table, mut own) = (p1(), p1());
    pair.run(&table, &mut own, HIGHEST_LIMIT);
    for limit in (0..64).flat_map(|bit| [0, 1, 3, 1023, 1024].map(|low| low ^ 1 << bit)) {
        let answers = [
            pair.run(&table, &mut p1(), limit),
            pair.edit(&mut p1(), &mut own.clone(), 8, &table[place(8)], limit),
        ];
        let right = match limit {
            0 => [accepted(0, 9, 0), accepted(1, 1, 0)],
            1..=HIGHEST_LIMIT => [accepted(1, 9, 2), accepted(1, 1, 1)],
            _ => [refused(19, 0); 2],
        };
        pair.expect(answers == right, || format!("{answers:?} for P1, limit {limit}"));
    }
}
