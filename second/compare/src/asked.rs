//! Questions small enough to be answered by hand.

use crate::pair::{hex, Pair};
use crate::paper::{accepted, p1, refused, table};
use second::bytes::{place, ROW};
use second::text::compared;
use second::{Relation, HIGHEST_LIMIT};
use stezkoun::numbers;

pub fn cases(pair: &mut Pair) {
    pair.group = "stated questions".into();
    lines(pair);
    as_they_stand(pair);
    many_of_one_result(pair);
    rows_of_arrays(pair);
}

fn rows(text: &str) -> Vec<u8> {
    table(&format!("width 8; {text}"))
}

fn own(table: &[u8]) -> Vec<u8> {
    let mut result = vec![0; table.len()];
    second::run(table, &mut result, HIGHEST_LIMIT);
    result
}

/// What the program prints, as docs/WHY.md has it. That the library says the same of the rows is seen
/// beside it.
fn lines(pair: &mut Pair) {
    let two_pieces = table("width 8; VAR 0 250; FRESH; SHIFT 0 248; CONST 245");
    let refused_table = rows("CONST 1; CONST 256; CONST 2");
    for (table, numbers, line) in [
        (p1(), [2, 6], "rows 2 and 6: same, same place\n"),
        (p1(), [2, 7], "rows 2 and 7: apart, separate ranges, 192..242 and 7..7\n"),
        (p1(), [7, 2], "rows 7 and 2: apart, separate ranges, 7..7 and 192..242\n"),
        (p1(), [0, 2], "rows 0 and 2: apart, different offsets on a shared base, 0 and 248\n"),
        (p1(), [7, 8], "rows 7 and 8: not known, undecided\n"),
        (
            two_pieces.clone(),
            [2, 3],
            "rows 2 and 3: apart, separate ranges, 0..242, 248..255 and 245..245\n",
        ),
        (
            two_pieces,
            [3, 2],
            "rows 3 and 2: apart, separate ranges, 245..245 and 0..242, 248..255\n",
        ),
        (p1(), [4, 1], "refused 14 row 4\n"),
        (p1(), [2, 9], "refused 7 row 0\n"),
        (refused_table.clone(), [0, 2], "refused 12 row 1\n"),
        (refused_table, [0, 3], "refused 7 row 0\n"),
    ] {
        let given = compared(&table, numbers[0], numbers[1]);
        pair.expect(given == line, || format!("{given} for rows {numbers:?} of {}", hex(&table)));
        pair.ask(&table, &own(&table), numbers);
    }
}

/// Kept results that no run leaves.
fn as_they_stand(pair: &mut Pair) {
    use Relation::{Apart, NotKnown, Same};
    let mut tells = |text: &str, kept: &str, numbers: [u64; 2], relation: Relation| {
        let [table, kept] = [text, kept].map(table);
        let comparison = pair.ask(&table, &kept, numbers);
        let right = comparison.answer == accepted(0, 0, 0) && comparison.relation() == relation;
        pair.expect(right, || format!("{comparison:?} for rows {numbers:?} of {}", hex(&kept)));
    };
    // A SHIFT of a SHIFT or of a CONST is not followed to its base; its range is.
    let chain = "width 64; VAR 0 9; SHIFT 0 18446744073709551615; SHIFT 1 1; SHIFT 0 0; CONST 7; \
        SHIFT 4 1; CONST 8; CONST 9; CONST 10";
    tells(chain, chain, [2, 3], NotKnown);
    tells(chain, chain, [0, 3], Same);
    tells(chain, chain, [5, 6], NotKnown);
    tells(chain, chain, [5, 7], Apart);
    tells(chain, chain, [2, 7], NotKnown);
    tells(chain, chain, [2, 8], Apart);
    // Sums and differences of each other, by their rows in their order.
    let sums =
        "width 8; VAR 0 1; SUM 0 0 0; SUM 1 1 0; SUM 1 1 1; SUM 1 2 0; SUM 2 1 0; DIFF 2 1 0; \
        DIFF 1 2 0; DIFF 2 1 9; NEG 1 0; NEG 9 0; SUM 2 1 0; CONST 4; CONST 5; CONST 8";
    tells(sums, sums, [2, 3], Apart);
    tells(sums, sums, [4, 5], NotKnown);
    tells(sums, sums, [5, 11], Same);
    tells(sums, sums, [6, 7], NotKnown);
    tells(sums, sums, [6, 8], Apart);
    // 0..4 and 0..6; 0..4 less 0..2 is 0..4, 254..255; 0..2 negated twice is 0..2 again.
    tells(sums, sums, [2, 12], NotKnown);
    tells(sums, sums, [2, 13], Apart);
    tells(sums, sums, [4, 14], Apart);
    tells(sums, sums, [6, 13], Apart);
    tells(sums, sums, [6, 12], NotKnown);
    tells(sums, sums, [10, 12], Apart);
    // Rows of one name have one variable in the table's own result; here they are on their own.
    let named = "width 8; VAR 3 0 9; VAR 3 0 9; SHIFT 1 4; SHIFT 0 4; FRESH; CONST 20";
    tells(
        named,
        "width 8; VAR 3 0 9; SHIFT 0 0; SHIFT 0 4; SHIFT 0 4; FRESH; CONST 20",
        [0, 1],
        Same,
    );
    tells(named, named, [0, 1], NotKnown);
    tells(named, named, [2, 3], NotKnown);
    tells(named, named, [2, 1], Apart);
    tells(named, named, [2, 5], Apart);
    // Bounds and names are the kept result's, and so is what is a READ.
    let other = "width 8; VAR 7 30 39; VAR 9 40 49; SHIFT 1 1; CONST 7; FRESH; READ 4 0";
    tells(named, other, [0, 1], Apart);
    tells(named, other, [1, 2], Apart);
    tells(named, other, [3, 5], NotKnown);
    tells(named, other, [5, 5], Same);
    tells(named, other, [2, 3], Apart);
}

/// All pairs of rows of P1 and of no row, again and again over buffers that were lent once; and its
/// result, which is a table and its own result, lent as both.
fn many_of_one_result(pair: &mut Pair) {
    let (table, result) = (p1(), own(&p1()));
    let (lent, room) = (table.clone(), result.clone());
    for [table, kept] in [[&lent, &room], [&room, &room], [&lent, &room]] {
        for (first, second) in (0..10).flat_map(|first| (0..10).map(move |second| (first, second)))
        {
            let given = numbers::ask(table, kept, first, second);
            let expected = second::ask(table, kept, first, second);
            let alike = given.relation == expected.relation() as u64
                && given.answer.refusal == expected.answer.refusal
                && given.answer.row == expected.answer.row
                && given.answer.compared == 0;
            pair.cases += 1;
            pair.expect(alike, || format!("{given:?} and {expected:?} for rows {first}, {second}"));
        }
    }
    pair.expect(lent == table && room == result, || "a question wrote into its buffers".into());
}

/// Rows that name arrays: the first number first, whichever row is lower; and what is not below n.
fn rows_of_arrays(pair: &mut Pair) {
    let table = rows("FRESH; CONST 1; WRITE 0 1 1; CONST 2");
    let kept = own(&table);
    let mut longer = kept.clone();
    longer.extend(&table[place(0)]);
    let mut refuses = |numbers: [u64; 2], number: u64, row: u64| {
        for kept in [&kept, &longer] {
            let answer = pair.ask(&table, kept, numbers).answer;
            pair.expect(answer == refused(number, row), || {
                format!("{answer:?} for rows {numbers:?} of {}", hex(&table))
            });
        }
    };
    refuses([0, 1], 14, 0);
    refuses([1, 0], 14, 0);
    refuses([2, 0], 14, 2);
    refuses([0, 2], 14, 0);
    refuses([2, 2], 14, 2);
    refuses([3, 2], 14, 2);
    let above = [4, 5, 255, 256, 1024, 65_535, 65_536, 1 << 32, 1 << 63, u64::MAX];
    for number in above.into_iter().chain([ROW as u64]) {
        refuses([number, 0], 7, 0);
        refuses([0, number], 7, 0);
        refuses([number, number], 7, 0);
    }
}
