//! Why reads moved: lists of the READ rows of a table, in space that is enough and not enough.

use crate::damage::{result_slice, row_number};
use crate::groups::MOST_ROWS_EVALUATED;
use crate::lines::List;
use crate::meaning::{decoded, World};
use crate::pair::{hex, Pair};
use crate::paper::{p1, refused, table};
use second::check::{check_header, check_rows};
use second::text::listed;
use tables::random::Random;

/// Each list takes a fresh run, so of larger tables only some reads are listed.
const MOST_ROWS_LISTED: usize = 100;
const READS_OF_LARGER: usize = 8;

/// The READ rows of a table; a refused one has none.
pub fn reads(table: &[u8]) -> Vec<u64> {
    let rows = check_header(table).and_then(|header| check_rows(table, header));
    let rows = (0..).zip(rows.unwrap_or_default());
    rows.filter(|(_, row)| row.is_read()).map(|(number, _)| number).collect()
}

pub fn cases(pair: &mut Pair, random: &mut Random, table: &[u8]) {
    let (width, rows) = decoded(table);
    let worlds = if rows.len() <= MOST_ROWS_EVALUATED { 2 } else { 0 };
    let means: Vec<Vec<u64>> =
        (0..worlds).map(|_| World::new(random, width, &rows).words(&rows)).collect();

    let mut reads = reads(table);
    if rows.len() > MOST_ROWS_LISTED && !reads.is_empty() {
        reads = (0..READS_OF_LARGER).map(|_| random.pick(&reads)).collect();
    }
    for row in reads {
        let list = listed(table, row);
        for length in [list.len(), other_length(random, list.len())] {
            let mut space = random.bytes(length);
            pair.why(table, &mut result_slice(random, table), row, &mut space);
        }
        let list = List::of(list.as_bytes());
        for words in &means {
            let told_true = list.as_ref().is_some_and(|list| list.true_of(width, words));
            pair.expect(told_true, || {
                format!("a reason listed for row {row} is not true: table {}", hex(table))
            });
        }
    }
    for _ in 0..2 {
        any_row(pair, random, table);
    }
}

/// One byte short, much too short, or longer.
fn other_length(random: &mut Random, needed: usize) -> usize {
    match random.below(4) {
        0 => needed - 1,
        1 => random.below(needed),
        2 => needed + 1,
        _ => needed + random.below(300),
    }
}

/// Any row of any bytes, most often one that is no READ.
pub fn any_row(pair: &mut Pair, random: &mut Random, table: &[u8]) {
    let row = row_number(random, table);
    let length = random.below(400);
    let mut space = random.bytes(length);
    pair.why(table, &mut result_slice(random, table), row, &mut space);
}

/// What docs/WHY.md says, on tables small enough to be worked out by hand.
pub fn stated(pair: &mut Pair) {
    pair.group = "stated lists".into();
    let passed = "instruction 12: read 8, array 4, index 7\n\
        instruction 6: store 4, index 2 against 7, separate ranges, 192..242 and 7..7\n\
        stands on array 1\n\
        result 8 7 1 7 0 0 0 12\n";
    lists(pair, &p1(), 8, passed);
    let met = "instruction 9: read 7, array 4, index 6\n\
        instruction 6: store 4, index 2 against 6, same place\n\
        found element 3\n\
        result 7 1 0 0 0 7 0 9\n";
    lists(pair, &p1(), 7, met);

    // Both a shared base and separate ranges tell rows 0 and 1 apart; no store lies under row 2.
    let both = table(
        "width 8; VAR 0 9; SHIFT 0 100; FRESH; WRITE 2 1 0 @4294967295; READ 3 0 @1000000000; \
        READ 2 0",
    );
    let shared = "instruction 1000000000: read 4, array 3, index 0\n\
        instruction 4294967295: store 3, index 1 against 0, \
        different offsets on a shared base, 100 and 0\n\
        stands on array 2\n\
        result 4 7 2 0 0 0 0 1000000000\n";
    lists(pair, &both, 4, shared);
    let alone = "instruction 0: read 5, array 2, index 0\n\
        stands on array 2\n\
        result 5 7 2 0 0 0 0 0\n";
    lists(pair, &both, 5, alone);

    // Row 4 skips row 3, so it stands on row 1; its index and element go by their plain names.
    let renamed = table(
        "width 64; VAR 0 18446744073709551615; FRESH; SHIFT 0 0; WRITE 1 0 0 @3; WRITE 3 2 2 @70; \
        VAR 0 1; SHIFT 5 0; READ 4 6 @69; READ 4 2 @70",
    );
    let undecided = "instruction 69: read 7, array 4, index 6\n\
        instruction 70: store 4, index 0 against 6, undecided\n\
        stands on array 4\n\
        result 7 7 4 5 0 0 0 69\n";
    lists(pair, &renamed, 7, undecided);
    let found = "instruction 70: read 8, array 4, index 2\n\
        instruction 70: store 4, index 0 against 2, same place\n\
        found element 0\n\
        result 8 3 0 0 0 0 0 70\n";
    lists(pair, &renamed, 8, found);

    refuses(pair, 4, 500, [17, 4], 0);
    refuses(pair, 4, 0, [17, 4], 0);
    refuses(pair, 9, 500, [7, 0], 0);
    refuses(pair, 8, passed.len() - 1, [22, 0], passed.len());
    refuses(pair, 7, 0, [22, 0], met.len());
}

pub fn lists(pair: &mut Pair, table: &[u8], row: u64, list: &str) {
    let mut space = vec![0x5a; list.len() + 9];
    let listing = pair.why(table, &mut table.to_vec(), row, &mut space);
    let given = &space[..list.len()];
    pair.expect(listing.length == list.len() as u64 && given == list.as_bytes(), || {
        let given = String::from_utf8_lossy(given);
        format!("{listing:?} and {given} for row {row} of {}", hex(table))
    });
}

/// A refusal of P1: its number and row, and the length answered with it.
fn refuses(pair: &mut Pair, row: u64, space: usize, refusal: [u64; 2], length: usize) {
    let listing = pair.why(&p1(), &mut p1(), row, &mut vec![0x5a; space]);
    let [number, blamed] = refusal;
    pair.expect(
        listing.answer == refused(number, blamed) && listing.length == length as u64,
        || format!("{listing:?} for row {row} of P1"),
    );
}
