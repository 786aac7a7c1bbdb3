//! Questions over a table's own result and over others, and what they are refused for.

use super::ask;
use crate::bytes::{place, table_bytes, table_length, HEADER, MOST_ROWS, ROW};
use crate::check::{check_header, check_rows};
use crate::reason::Relation;
use crate::row::{Row, Sort};
use crate::text::{compared, packed};
use crate::word::Width;
use crate::{edit, run, simplified, HIGHEST_LIMIT};

fn rows(text: &str) -> Vec<u8> {
    packed(&format!("width 8; {text}")).expect("rows as text")
}

fn own(table: &[u8]) -> Vec<u8> {
    own_within(table, HIGHEST_LIMIT)
}

fn own_within(table: &[u8], limit: u64) -> Vec<u8> {
    let mut result = vec![0; table.len()];
    assert_eq!(run(table, &mut result, limit).refusal, 0);
    result
}

/// The relation and the reason, or the refusal and its row.
fn told(table: &[u8], kept: &[u8], numbers: [u64; 2]) -> String {
    let comparison = ask(table, kept, numbers[0], numbers[1]);
    let answer = comparison.answer;
    assert_eq!([answer.removed, answer.touched, answer.compared], [0; 3], "no run is made");
    if answer.refusal != 0 {
        assert_eq!(comparison.relation(), Relation::NotKnown, "on a refusal");
        return format!("refused {} row {}", answer.refusal, answer.row);
    }
    format!("{}, {}", comparison.relation(), comparison.reason)
}

const P1: &str = "VAR 200 250; FRESH; SHIFT 0 248; CONST 7; WRITE 1 2 3; SHIFT 0 224; SHIFT 5 24; \
    READ 4 6; READ 4 7";

/// Reads that moved, names, compound rows, ranges in two pieces.
const TABLES: [&str; 4] = [
    P1,
    "VAR 3 0 9; VAR 3 0 9; VAR 0 9; DIFF 0 1 5; DIFF 0 2 5; SHIFT 1 200; FRESH; WRITE 6 0 4; \
        READ 7 1; READ 7 5; READ 7 2",
    "VAR 0 20; SHIFT 0 248; NEG 0 0; SUM 1 2 3; SUM 2 1 3; NEG 3 9; DIFF 5 0 1; CONST 100; \
        CONST 252; FRESH; WRITE 9 1 0; READ 10 7; READ 10 8; SHIFT 12 1",
    "VAR 0 255; SHIFT 0 5; SHIFT 0 3; DIFF 1 2 0; DIFF 2 1 0; SHIFT 1 251; NEG 1 4; NEG 6 0",
];

#[test]
fn over_its_own_result_a_table_is_told_what_the_run_itself_knows() {
    for (text, limit) in TABLES.iter().flat_map(|text| [0, 1, 1024].map(|limit| (text, limit))) {
        let table = rows(text);
        let kept = own_within(&table, limit);
        let header = check_header(&table).expect("a table");
        let decoded = check_rows(&table, header).expect("a table");
        let mut watch = ();
        let mut outcome = simplified(header, &decoded, limit, &mut watch);
        let words = (0..decoded.len()).filter(|row| decoded[*row].sort() == Sort::Word);
        let words: Vec<usize> = words.collect();
        for first in &words {
            for second in &words {
                let comparison = ask(&table, &kept, *first as u64, *second as u64);
                assert_eq!(comparison.answer.refusal, 0);
                assert_eq!(
                    comparison.reason,
                    outcome.reason(*first, *second),
                    "rows {first} and {second} of {text}, limit {limit}"
                );
            }
        }
    }
}

#[test]
fn reasons_of_p1() {
    let (table, kept) = (rows(P1), own(&rows(P1)));
    for (numbers, text) in [
        ([2, 6], "same, same place"),
        ([2, 7], "apart, separate ranges, 192..242 and 7..7"),
        ([7, 2], "apart, separate ranges, 7..7 and 192..242"),
        ([0, 2], "apart, different offsets on a shared base, 0 and 248"),
        ([7, 8], "not known, undecided"),
        ([8, 8], "same, same place"),
    ] {
        assert_eq!(told(&table, &kept, numbers), text);
        let [first, second] = numbers;
        assert_eq!(
            compared(&table, first, second),
            format!("rows {first} and {second}: {text}\n"),
            "the program's line"
        );
    }
    // The line shows the question's refusal, also where the run was refused.
    assert_eq!(compared(&table, 4, 9), "refused 7 row 0\n");
    assert_eq!(compared(&table, 4, 1), "refused 14 row 4\n");
    assert_eq!(compared(&rows("CONST 256"), 0, 0), "refused 12 row 0\n");
    assert_eq!(compared(&rows("CONST 256"), 0, 1), "refused 7 row 0\n");
    assert_eq!(compared(&[], 0, 1), "refused 1 row 0\n");
}

#[test]
fn after_an_edit_its_kept_result_is_asked() {
    let (mut table, mut kept) = (rows(P1), own(&rows(P1)));
    let wide = rows("VAR 0 250");
    assert_eq!(edit(&mut table, &mut kept, 0, &wide[place(0)], HIGHEST_LIMIT).refusal, 0);
    assert_eq!(told(&table, &kept, [2, 7]), "not known, undecided");
    assert_eq!(told(&table, &kept, [2, 6]), "same, same place");
    let high = rows("CONST 245");
    assert_eq!(edit(&mut table, &mut kept, 3, &high[place(0)], HIGHEST_LIMIT).refusal, 0);
    assert_eq!(
        told(&table, &kept, [2, 7]),
        "apart, separate ranges, 0..242, 248..255 and 245..245"
    );
}

#[test]
fn rows_of_another_result_are_taken_as_they_stand() {
    let asked = |table: &str, kept: &str, numbers| told(&rows(table), &rows(kept), numbers);
    // Rows 2 and 3 are one place, but not by their bases: a run would have made them so.
    let kept = "VAR 10 20; SHIFT 0 5; SHIFT 1 5; SHIFT 0 10";
    assert_eq!(asked(kept, kept, [2, 3]), "not known, undecided");
    assert_eq!(told(&rows(kept), &own(&rows(kept)), [2, 3]), "same, same place");
    // A SHIFT of a CONST has that row for its base, and a base is not followed.
    let kept = "CONST 7; SHIFT 0 0; CONST 8; CONST 7";
    assert_eq!(asked(kept, kept, [1, 3]), "not known, undecided");
    assert_eq!(asked(kept, kept, [0, 3]), "same, same place");
    assert_eq!(asked(kept, kept, [1, 2]), "apart, separate ranges, 7..7 and 8..8");
    // Bases of one kind and offset, of other rows or in another order.
    let kept = "VAR 0 9; VAR 0 9; SUM 0 1 0; SUM 1 0 0; DIFF 0 1 0; DIFF 1 0 0; NEG 0 0; NEG 1 0";
    for numbers in [[2, 3], [4, 5], [6, 7], [2, 4], [0, 1]] {
        assert_eq!(asked(kept, kept, numbers), "not known, undecided");
    }
    // Names have no part: each VAR is its own base.
    let kept = "VAR 3 0 9; VAR 3 0 9; SHIFT 0 1; SHIFT 1 1; SHIFT 1 200";
    assert_eq!(asked(kept, kept, [0, 1]), "not known, undecided");
    assert_eq!(asked(kept, kept, [2, 3]), "not known, undecided");
    assert_eq!(asked(kept, kept, [2, 4]), "apart, separate ranges, 1..10 and 200..209");
    // Neither rows, names nor ranges are the table's.
    let table = "VAR 3 0 9; VAR 3 0 9; SHIFT 0 1; FRESH; CONST 1";
    let kept = "VAR 4 100 109; CONST 50; SHIFT 1 1; FRESH; CONST 51";
    assert_eq!(asked(table, kept, [0, 1]), "apart, separate ranges, 100..109 and 50..50");
    assert_eq!(asked(table, kept, [2, 0]), "apart, separate ranges, 51..51 and 100..109");
    assert_eq!(asked(table, kept, [2, 4]), "not known, undecided");
    // A READ is a base of its own and ranges over every word, whatever the table has there.
    let kept = "FRESH; CONST 1; READ 0 1; READ 0 1; SHIFT 2 0; SHIFT 2 1";
    let table = "FRESH; CONST 1; CONST 2; CONST 3; CONST 4; CONST 5";
    assert_eq!(asked(table, kept, [2, 3]), "not known, undecided");
    assert_eq!(asked(table, kept, [2, 1]), "not known, undecided");
    assert_eq!(asked(table, kept, [2, 4]), "same, same place");
    assert_eq!(asked(table, kept, [4, 5]), "apart, different offsets on a shared base, 0 and 1");
}

/// Each row leads to the row below twice over, so that nobody may follow every way down.
#[test]
fn deep_rows_are_worked_out_once_each() {
    let width = Width::new(64).expect("a width");
    let sources = vec![0; MOST_ROWS];
    let table = table_bytes(width, &vec![Row::Const { k: 0 }; MOST_ROWS], &sources);
    let mut deep = vec![Row::Const { k: 1 }];
    let mut value = 1u64;
    for below in 0..MOST_ROWS - 2 {
        let (a, b, k) = (below, below, below as u64);
        deep.push(if below % 3 == 0 { Row::Diff { a, b, k } } else { Row::Sum { a, b, k } });
        value = if below % 3 == 0 { k } else { value.wrapping_mul(2).wrapping_add(k) };
    }
    for (beside, text) in [
        (value, "not known, undecided".into()),
        (value ^ 1, format!("apart, separate ranges, {value}..{value} and {0}..{0}", value ^ 1)),
    ] {
        let mut deep = deep.clone();
        deep.push(Row::Const { k: beside });
        let kept = table_bytes(width, &deep, &sources);
        assert_eq!(told(&table, &kept, [1022, 1023]), text);
    }
}

#[test]
fn refused_before_the_rows() {
    let (table, kept) = (rows("CONST 256; FRESH"), rows("CONST 256"));
    let other = |at: usize, byte: u8| {
        let mut table = table.clone();
        table[at] = byte;
        table
    };
    assert_eq!(told(&table[..5], &[], [9, 9]), "refused 1 row 0");
    assert_eq!(told(&other(0, 0), &[], [9, 9]), "refused 2 row 0");
    assert_eq!(told(&other(2, 65), &[], [9, 9]), "refused 3 row 0");
    assert_eq!(told(&other(5, 16), &[], [9, 9]), "refused 4 row 0");
    assert_eq!(told(&other(4, 3), &[], [9, 9]), "refused 5 row 0");
    assert_eq!(told(&table, &kept, [9, 9]), "refused 6 row 0");
    // 7, of either number, before the faults of rows and of the kept result.
    let kept = vec![0; table.len()];
    for wrong in [2, 3, 1024, 1 << 16, 1 << 32, u64::MAX] {
        assert_eq!(told(&table, &kept, [wrong, 0]), "refused 7 row 0");
        assert_eq!(told(&table, &kept, [1, wrong]), "refused 7 row 0");
    }
    assert_eq!(told(&rows(""), &rows(""), [0, 0]), "refused 7 row 0");
}

#[test]
fn refused_for_a_row_of_the_table_then_for_the_kept_result_then_for_an_array() {
    let fits = rows("CONST 1; FRESH; CONST 2");
    let none = vec![0x5a; fits.len()];
    // 9 to 15 and 18, each before 16, and 16 before 14 for a number.
    let mut marked = fits.clone();
    marked[place(2)][0] = 0;
    assert_eq!(told(&marked, &none, [1, 1]), "refused 9 row 2");
    let mut of_no_kind = fits.clone();
    of_no_kind[place(2)][2] = 10;
    assert_eq!(told(&of_no_kind, &none, [1, 1]), "refused 10 row 2");
    let mut used = fits.clone();
    used[place(1)][10] = 1;
    assert_eq!(told(&used, &none, [1, 1]), "refused 11 row 1");
    for (last, refused) in [
        ("CONST 256", "refused 12 row 2"),
        ("SHIFT 2 0", "refused 13 row 2"),
        ("SHIFT 1 0", "refused 14 row 2"),
        ("VAR 2 1", "refused 15 row 2"),
    ] {
        let table = rows(&format!("CONST 1; FRESH; {last}"));
        assert_eq!(told(&table, &none, [1, 1]), refused);
    }
    let table = rows("VAR 3 0 9; FRESH; VAR 3 0 8");
    assert_eq!(told(&table, &none, [1, 1]), "refused 18 row 2");
    assert_eq!(told(&fits, &none, [1, 1]), "refused 16 row 0");
    assert_eq!(told(&fits, &fits, [1, 1]), "refused 14 row 1");
    // The first number first.
    let two = rows("FRESH; FRESH; CONST 1");
    assert_eq!(told(&two, &two, [1, 0]), "refused 14 row 1");
    assert_eq!(told(&two, &two, [0, 1]), "refused 14 row 0");
    assert_eq!(told(&two, &two, [2, 1]), "refused 14 row 1");
    assert_eq!(told(&two, &two, [0, 2]), "refused 14 row 0");
    assert_eq!(told(&two, &two, [2, 2]), "same, same place");
}

#[test]
fn kept_results_that_do_not_go_with_the_table() {
    let table = rows("CONST 1; FRESH; CONST 2; VAR 3 0 9; VAR 3 0 9");
    let asked = |kept: &[u8]| told(&table, kept, [0, 2]);
    let apart = "apart, different offsets on a shared base, 1 and 2";
    let kept = own(&table);
    assert_eq!(asked(&kept), apart);
    // What follows the table's length has no part in it.
    for behind in [1, ROW, 100] {
        let mut longer = kept.clone();
        longer.resize(table.len() + behind, 0x5a);
        assert_eq!(asked(&longer), apart);
    }
    assert_eq!(asked(&kept[..table.len() - 1]), "refused 6 row 0");
    // Another width alone: as a table it would do.
    let mut wider = kept.clone();
    wider[2] = 9;
    assert_eq!(ask(&wider, &wider, 0, 2).answer.refusal, 0);
    assert_eq!(asked(&wider), "refused 16 row 0");
    // Another count, in a slice that is long enough for it.
    for text in
        ["CONST 1; FRESH; CONST 2; VAR 3 0 9", "CONST 1; FRESH; CONST 2; CONST 3; CONST 4; CONST 5"]
    {
        let mut other = rows(text);
        other.resize(table_length(6), 0);
        assert_eq!(asked(&other), "refused 16 row 0");
    }
    // A header that is the table's, over rows that are none; the first faulty one is not told.
    let mut none = kept.clone();
    none[HEADER..].fill(0);
    assert_eq!(asked(&none), "refused 16 row 0");
    for text in [
        // The sort of one row, either way.
        "CONST 1; FRESH; FRESH; CONST 1; CONST 1",
        "CONST 1; CONST 1; CONST 2; CONST 1; CONST 1",
        "CONST 1; FRESH; CONST 2; CONST 1; FRESH",
        // Faults of one row.
        "CONST 1; FRESH; CONST 2; CONST 1; CONST 256",
        "CONST 1; FRESH; CONST 2; CONST 1; SHIFT 4 0",
        "CONST 1; FRESH; CONST 2; CONST 1; SHIFT 1 0",
        "CONST 1; FRESH; CONST 2; CONST 1; VAR 9 8",
        "CONST 1; FRESH; CONST 2; VAR 3 0 9; VAR 3 0 8",
    ] {
        assert_eq!(asked(&rows(text)), "refused 16 row 0", "{text}");
    }
    // Of one sort, any rows will do.
    let text = "CONST 1; FRESH; CONST 2; VAR 3 0 9; READ 1 2";
    assert_eq!(asked(&rows(text)), apart);
}
