//! Registers seen twice, in tables small enough to be worked out by hand; all of width 8.

use crate::pair::{hex, Pair};
use crate::paper::{accepted, refused, runs, table};
use second::bytes::{place, HEADER, KIND, REFERENCES, ROW, ZERO};
use second::HIGHEST_LIMIT;

pub fn cases(pair: &mut Pair) {
    pair.group = "registers seen twice".into();
    results(pair);
    refusals(pair);
    kept_results(pair);
    edits_of_firsts(pair);
    edits_of_others(pair);
    old_rows(pair);
}

fn rows(text: &str) -> Vec<u8> {
    table(&format!("width 8; {text}"))
}

/// The number of rows of a table.
fn count(table: &[u8]) -> u64 {
    ((table.len() - HEADER) / ROW) as u64
}

fn results(pair: &mut Pair) {
    let mut becomes = |text: &str, removed: u64, compared: u64, result: &str| {
        let [table, result] = [text, result].map(rows);
        runs(pair, &table, accepted(removed, count(&table), compared), Some(&result));
    };
    becomes(
        "VAR 3 0 255 @1; VAR 3 0 255 @2; DIFF 0 1 0 @3; DIFF 1 0 5 @4",
        0,
        0,
        "VAR 3 0 255 @1; SHIFT 0 0 @2; CONST 0 @3; CONST 5 @4",
    );
    // Each row without a name is a variable of its own, whatever its bounds.
    becomes("VAR 0 9; VAR 0 9; DIFF 0 1 0; VAR 5 7", 0, 0, "VAR 0 9; VAR 0 9; DIFF 0 1 0; VAR 5 7");
    // The first, not the one before; and names that agree modulo 256 are different names.
    becomes(
        "VAR 3 0 9; VAR 259 1 9; VAR 3 0 9; VAR 259 1 9; VAR 3 0 9; VAR 65283 2 9; DIFF 4 2 0; \
        DIFF 3 4 0",
        0,
        0,
        "VAR 3 0 9; VAR 259 1 9; SHIFT 0 0; SHIFT 1 0; SHIFT 0 0; VAR 65283 2 9; CONST 0; \
        DIFF 1 0 0",
    );
    // A name is no reference: it may be any number, and a row's own or an array's.
    becomes(
        "VAR 65535 0 9; VAR 1 0 8; FRESH; VAR 2 3 4; VAR 65535 0 9; VAR 1 0 8",
        0,
        0,
        "VAR 65535 0 9; VAR 1 0 8; FRESH; VAR 2 3 4; SHIFT 0 0; SHIFT 1 0",
    );
    // What is stored through the first is read through the second, and stands at the plain name.
    becomes(
        "VAR 3 100 200; FRESH; CONST 7; WRITE 1 0 2; VAR 3 100 200; READ 3 4; WRITE 3 4 4; \
        VAR 9 0 255; VAR 9 0 255; READ 6 8",
        1,
        2,
        "VAR 3 100 200; FRESH; CONST 7; WRITE 1 0 2; SHIFT 0 0; CONST 7; WRITE 1 0 0; \
        VAR 9 0 255; SHIFT 7 0; READ 6 7",
    );
}

/// Refused by every call, whatever else it would be refused for later.
fn is_refused(pair: &mut Pair, table: &[u8], number: u64, row: u64) {
    runs(pair, table, refused(number, row), None);
    let (last, slice) = (count(table) - 1, || vec![0x5a; table.len()]);
    let replacement = &table[place(last as usize)];
    let answers = [
        pair.ask(table, &slice(), [last, last]).answer,
        pair.why(table, &mut slice(), last, &mut []).answer,
        pair.edit(&mut table.to_vec(), &mut slice(), last, replacement, HIGHEST_LIMIT),
    ];
    let right = answers.iter().all(|answer| *answer == refused(number, row));
    pair.expect(right, || format!("{answers:?} for {}", hex(table)));
}

fn refusals(pair: &mut Pair) {
    let mut refuses = |text: &str, number: u64, row: u64| {
        is_refused(pair, &rows(&format!("{text}; FRESH")), number, row);
    };
    refuses("VAR 3 0 9; VAR 3 0 8", 18, 1);
    refuses("VAR 3 1 9; VAR 3 0 9", 18, 1);
    refuses("VAR 3 0 9; VAR 4 0 8; VAR 0 7; VAR 3 0 9; VAR 4 0 7; VAR 3 0 8", 18, 4);
    refuses("VAR 65535 0 9; VAR 255 0 8; VAR 65535 0 8", 18, 2);
    // In one row 12 and 15 go before it.
    refuses("VAR 3 0 9; VAR 3 0 256", 12, 1);
    refuses("VAR 3 0 9; VAR 3 8 7", 15, 1);
    // A faulty row above goes before it, and it before one below.
    refuses("VAR 3 0 9; SHIFT 1 0; VAR 3 0 8", 13, 1);
    refuses("VAR 3 0 9; VAR 3 0 8; SHIFT 2 0", 18, 1);
    refuses("VAR 3 8 7; VAR 3 0 9", 15, 0);
    refuses("VAR 3 0 9; VAR 4 0 8; VAR 4 0 9; VAR 3 0 8", 18, 2);
    // In one row 9, 10 and 11 go before it too.
    let two = rows("VAR 3 0 9; VAR 3 0 8; FRESH");
    for (at, number) in [(0, 9), (ZERO, 9), (KIND, 10), (REFERENCES[1], 11), (REFERENCES[2], 11)] {
        let mut wrong = two.clone();
        wrong[place(1)][at] = 77;
        is_refused(pair, &wrong, number, 1);
    }
}

/// Refusal 16 judges names in the kept result too.
fn kept_results(pair: &mut Pair) {
    let unequal = "VAR 3 0 9; VAR 3 0 8; CONST 1";
    let equal = "VAR 3 0 9; VAR 3 0 9; CONST 1";
    Edit { table: equal, kept: unequal, row: 2, new: "CONST 2" }.is_refused(pair, 16, 0);
    Edit { table: unequal, kept: unequal, row: 2, new: "CONST 2" }.is_refused(pair, 18, 1);
    // A kept result may have a name twice, and keeps it so.
    Edit { table: equal, kept: equal, row: 2, new: "CONST 2" }.gives(
        pair,
        1,
        "VAR 3 0 9; VAR 3 0 9; CONST 2",
    );
    // There they are two rows with two bases.
    Edit { table: "VAR 3 0 9; VAR 3 0 9; CONST 1", kept: equal, row: 2, new: "DIFF 0 1 0" }.gives(
        pair,
        1,
        "VAR 3 0 9; VAR 3 0 9; DIFF 0 1 0",
    );
}

/// An edit; without a text of the kept result it is the table's own.
struct Edit<'e> {
    table: &'e str,
    kept: &'e str,
    row: u64,
    new: &'e str,
}

const OWN: &str = "";

impl Edit<'_> {
    fn kept(&self) -> Vec<u8> {
        if self.kept != OWN {
            return rows(self.kept);
        }
        let table = rows(self.table);
        let mut kept = vec![0; table.len()];
        second::run(&table, &mut kept, HIGHEST_LIMIT);
        kept
    }

    fn gives(self, pair: &mut Pair, touched: u64, outcome: &str) {
        self.over(pair, rows(self.table), touched, outcome);
    }

    /// With these bytes for the table, which may be none.
    fn over(&self, pair: &mut Pair, mut table: Vec<u8>, touched: u64, outcome: &str) {
        let mut kept = self.kept();
        let new = &rows(self.new)[place(0)];
        let answer = pair.edit(&mut table, &mut kept, self.row, new, HIGHEST_LIMIT);
        let right = answer == accepted(answer.removed, touched, 0) && kept == rows(outcome);
        pair.expect(right, || {
            let Edit { table, row, new, .. } = self;
            format!("{answer:?} and {} for {new} in row {row} of {table}", hex(&kept))
        });
    }

    fn is_refused(self, pair: &mut Pair, number: u64, row: u64) {
        let (mut table, mut kept, new) = (rows(self.table), self.kept(), rows(self.new));
        let answer = pair.edit(&mut table, &mut kept, self.row, &new[place(0)], HIGHEST_LIMIT);
        pair.expect(answer == refused(number, row), || {
            format!("{answer:?} for {} in row {} of {}", self.new, self.row, self.table)
        });
    }
}

/// Rows 1 and 2 are row 0 again; row 3 leads back to it through row 2's name, row 4 through row 3.
const THRICE: &str = "VAR 3 0 9 @1; VAR 3 0 9 @2; VAR 3 0 9 @3; SHIFT 2 4 @4; DIFF 3 0 0 @5; \
    VAR 0 9 @6; VAR 4 0 9 @7; CONST 6 @8";

fn edits_of_firsts(pair: &mut Pair) {
    let first = |new| Edit { table: THRICE, kept: OWN, row: 0, new };
    let rest = "VAR 0 9 @6; VAR 4 0 9 @7; CONST 6 @8";
    // Another name, none, or another kind: the second is the first now.
    first("VAR 5 0 9 @9").gives(
        pair,
        5,
        &format!("VAR 5 0 9 @9; VAR 3 0 9 @2; SHIFT 1 0 @3; SHIFT 1 4 @4; DIFF 1 0 4 @5; {rest}"),
    );
    first("VAR 0 9 @9").gives(
        pair,
        5,
        &format!("VAR 0 9 @9; VAR 3 0 9 @2; SHIFT 1 0 @3; SHIFT 1 4 @4; DIFF 1 0 4 @5; {rest}"),
    );
    first("CONST 1 @9").gives(
        pair,
        5,
        &format!("CONST 1 @9; VAR 3 0 9 @2; SHIFT 1 0 @3; SHIFT 1 4 @4; SHIFT 1 3 @5; {rest}"),
    );
    // A name that a row below has: that row is a later one now.
    first("VAR 4 0 9 @9").gives(
        pair,
        6,
        "VAR 4 0 9 @9; VAR 3 0 9 @2; SHIFT 1 0 @3; SHIFT 1 4 @4; DIFF 1 0 4 @5; VAR 0 9 @6; \
        SHIFT 0 0 @7; CONST 6 @8",
    );
    // The same name: nothing but the instruction changes, and all that lead back are counted.
    first("VAR 3 0 9 @9").gives(
        pair,
        5,
        &format!("VAR 3 0 9 @9; SHIFT 0 0 @2; SHIFT 0 0 @3; SHIFT 0 4 @4; CONST 4 @5; {rest}"),
    );
    first("VAR 3 0 8").is_refused(pair, 18, 1);
    first("VAR 4 0 8").is_refused(pair, 18, 6);
    first("FRESH").is_refused(pair, 14, 4);
    // The only one of its name may have any bounds.
    Edit { table: "VAR 3 0 9; VAR 259 0 9; SHIFT 0 1", kept: OWN, row: 0, new: "VAR 3 0 8" }.gives(
        pair,
        2,
        "VAR 3 0 8; VAR 259 0 9; SHIFT 0 1",
    );
}

fn edits_of_others(pair: &mut Pair) {
    let edit = |row, new| Edit { table: THRICE, kept: OWN, row, new };
    let [head, rest] = ["VAR 3 0 9 @1", "VAR 0 9 @6; VAR 4 0 9 @7; CONST 6 @8"];
    // Row 2 leads back to the first, not to row 1.
    edit(1, "VAR 5 0 9 @9").gives(
        pair,
        1,
        &format!("{head}; VAR 5 0 9 @9; SHIFT 0 0 @3; SHIFT 0 4 @4; CONST 4 @5; {rest}"),
    );
    edit(1, "CONST 2 @9").gives(
        pair,
        1,
        &format!("{head}; CONST 2 @9; SHIFT 0 0 @3; SHIFT 0 4 @4; CONST 4 @5; {rest}"),
    );
    edit(2, "VAR 4 0 9 @9").gives(
        pair,
        4,
        &format!(
            "{head}; SHIFT 0 0 @2; VAR 4 0 9 @9; SHIFT 2 4 @4; DIFF 2 0 4 @5; VAR 0 9 @6; \
            SHIFT 2 0 @7; CONST 6 @8"
        ),
    );
    edit(5, "VAR 3 0 9 @9").gives(
        pair,
        1,
        &format!(
            "{head}; SHIFT 0 0 @2; SHIFT 0 0 @3; SHIFT 0 4 @4; CONST 4 @5; SHIFT 0 0 @9; \
            VAR 4 0 9 @7; CONST 6 @8"
        ),
    );
    edit(2, "VAR 3 1 9").is_refused(pair, 18, 2);
    // A first above the old one.
    Edit { table: "CONST 1; VAR 3 0 9; SHIFT 1 2; VAR 3 0 9", kept: OWN, row: 0, new: "VAR 3 0 9" }
        .gives(pair, 4, "VAR 3 0 9; SHIFT 0 0; SHIFT 0 2; SHIFT 0 0");
    // SHIFT of the first by 0 to the letter, whatever stands in the place of the first.
    let table = "VAR 0 9; VAR 3 0 9; CONST 1; SHIFT 2 4; VAR 3 0 9";
    for first in ["CONST 6", "SHIFT 0 8", "SHIFT 0 0", "NEG 0 8", "SUM 0 0 8", "VAR 7 1 2"] {
        let kept = format!("VAR 3 1 2; {first}; CONST 1; CONST 9; CONST 8 @77");
        Edit { table, kept: &kept, row: 2, new: "VAR 3 0 9 @9" }.gives(
            pair,
            2,
            &format!("VAR 3 1 2; {first}; SHIFT 1 0 @9; SHIFT 1 4; CONST 8 @77"),
        );
    }
}

/// The row that is replaced counts as a VAR by its kind byte alone, and its name is followed then.
fn old_rows(pair: &mut Pair) {
    let text = "VAR 0 9; VAR 3 0 9; VAR 3 0 9; SHIFT 2 4; CONST 7; VAR 3 0 9";
    let edit = Edit { table: text, kept: OWN, row: 1, new: "CONST 1 @9" };
    // With the name of rows 2 and 5; without it they led back to row 2, and row 1 is alone.
    let followed = "VAR 0 9; CONST 1 @9; VAR 3 0 9; SHIFT 2 4; CONST 7; SHIFT 2 0";
    let alone = "VAR 0 9; CONST 1 @9; SHIFT 1 0; SHIFT 1 4; CONST 7; SHIFT 1 0";
    for byte in 0..ROW {
        for value in [0, 1, 3, 5, 10, 255] {
            let mut table = rows(text);
            let old = &mut table[place(1)];
            old[byte] = value;
            if old[KIND] == 2 && old[REFERENCES[0]..][..2] == [3, 0] {
                edit.over(pair, table, 4, followed);
            } else {
                edit.over(pair, table, 1, alone);
            }
        }
    }
}
