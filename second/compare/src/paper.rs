//! The tables to try of document 01, with the outcomes that it states, and with instruction numbers.

use crate::pair::{hex, Pair};
use second::bytes::{row_bytes, table_bytes, MOST_ROWS};
use second::text::packed;
use second::{Answer, Relation, Row, Width, HIGHEST_LIMIT};

/// P1 written out, so that the encoder is not trusted with it; examples/p1.rows is its text.
const P1: &str = "465408000900\
    524f0200000000000000c800000000000000fa0000000000000000000000\
    524f08000000000000000000000000000000000000000000000000000000\
    524f0300000000000000f800000000000000000000000000000006000000\
    524f01000000000000000700000000000000000000000000000006000000\
    524f09000100020003000000000000000000000000000000000006000000\
    524f0300000000000000e000000000000000000000000000000009000000\
    524f03000500000000001800000000000000000000000000000009000000\
    524f07000400060000000000000000000000000000000000000009000000\
    524f0700040007000000000000000000000000000000000000000c000000";

pub fn p1() -> Vec<u8> {
    let digits: Vec<u8> = P1.bytes().map(|c| (c as char).to_digit(16).unwrap() as u8).collect();
    digits.chunks(2).map(|pair| pair[0] << 4 | pair[1]).collect()
}

pub const P1_RESULT: &str =
    "width 8; VAR 200 250; FRESH; SHIFT 0 248 @6; CONST 7 @6; WRITE 1 2 3 @6; \
    SHIFT 0 224 @9; SHIFT 0 248 @9; CONST 7 @9;";

pub fn accepted(removed: u64, touched: u64, compared: u64) -> Answer {
    Answer { refusal: 0, row: 0, removed, touched, compared }
}

pub fn refused(refusal: u64, row: u64) -> Answer {
    Answer { refusal, row, removed: 0, touched: 0, compared: 0 }
}

pub fn table(text: &str) -> Vec<u8> {
    packed(text).expect("rows as text")
}

/// A run with the highest limit.
pub fn runs(pair: &mut Pair, table: &[u8], answer: Answer, result: Option<&[u8]>) {
    runs_within(pair, table, HIGHEST_LIMIT, answer, result);
}

pub fn runs_within(
    pair: &mut Pair, table: &[u8], limit: u64, answer: Answer, result: Option<&[u8]>,
) {
    let mut given = vec![0x5a; table.len()];
    let got = pair.run(table, &mut given, limit);
    pair.expect(got == answer, || format!("{got:?}, limit {limit}, for {}", hex(table)));
    if let Some(result) = result {
        pair.expect(given == result, || {
            format!("result {} of {}, limit {limit}", hex(&given), hex(table))
        });
    }
}

/// Row `first` of the table against others, by its own result.
pub fn relates(pair: &mut Pair, text: &str, first: u64, others: &[(u64, Relation)]) {
    let table = table(text);
    let mut result = vec![0x5a; table.len()];
    pair.run(&table, &mut result, HIGHEST_LIMIT);
    for (second, relation) in others {
        let got = pair.ask(&table, &result, [first, *second]).relation();
        pair.expect(got == *relation, || format!("{got:?} for rows {first}, {second} of {text}"));
    }
}

pub fn cases(pair: &mut Pair) {
    pair.group = "cases of the document".into();
    p1_to_p4(pair);
    ranges(pair);
    words_and_writes(pair);
    run_line(pair);
}

fn p1_to_p4(pair: &mut Pair) {
    let p1 = p1();
    let result = table(&format!("{P1_RESULT} READ 1 7 @12"));
    runs(pair, &p1, accepted(1, 9, 2), Some(&result));

    let (mut edited, mut kept) = (p1.clone(), result.clone());
    let wide = row_bytes(Row::Var { name: 0, low: 0, high: 250 }, u32::MAX);
    let answer = pair.edit(&mut edited, &mut kept, 0, &wide, HIGHEST_LIMIT);
    let outcome = format!("{P1_RESULT} READ 4 7 @12");
    let outcome = table(&outcome.replace("VAR 200 250", "VAR 0 250 @4294967295"));
    pair.expect(answer == accepted(1, 7, 2) && kept == outcome, || format!("P2 gave {answer:?}"));

    let (mut edited, mut kept) = (p1.clone(), result.clone());
    let word = row_bytes(Row::Const { k: 0 }, 1);
    let answer = pair.edit(&mut edited, &mut kept, 1, &word, HIGHEST_LIMIT);
    pair.expect(answer == refused(14, 4), || format!("P3 gave {answer:?}"));

    let empty = [0x46, 0x54, 8, 0, 0, 0];
    runs(pair, &empty, accepted(0, 0, 0), Some(&empty));
}

/// P2 and P5 to P7, seen from outside: a row is apart from a CONST just outside its range.
fn ranges(pair: &mut Pair) {
    use Relation::{Apart, NotKnown};
    let p2 = "width 8; VAR 0 250; SHIFT 0 248; CONST 0; CONST 242; CONST 243; CONST 247; \
        CONST 248; CONST 255";
    relates(pair, p2, 1, &[(2, NotKnown), (3, NotKnown), (4, Apart), (5, Apart)]);
    relates(pair, p2, 1, &[(6, NotKnown), (7, NotKnown)]);

    let p5 = "width 8; VAR 0 254; SHIFT 0 1; VAR 0 255; SHIFT 2 1; CONST 0; CONST 1; CONST 255";
    relates(pair, p5, 1, &[(4, Apart), (5, NotKnown), (6, NotKnown)]);
    relates(pair, p5, 3, &[(4, NotKnown), (5, NotKnown), (6, NotKnown)]);

    let p6 = "width 8; VAR 255 255; SHIFT 0 1; VAR 254 255; SHIFT 2 1; CONST 0; CONST 1; \
        CONST 254; CONST 255";
    relates(pair, p6, 1, &[(4, NotKnown), (5, Apart)]);
    relates(pair, p6, 3, &[(4, NotKnown), (5, Apart), (6, Apart), (7, NotKnown)]);

    let p7 = "width 8; VAR 0 0; NEG 0 0; VAR 1 5; NEG 2 0; VAR 0 5; NEG 4 0; \
        CONST 0; CONST 250; CONST 251; CONST 255; CONST 1";
    relates(pair, p7, 1, &[(6, NotKnown), (7, Apart), (9, Apart)]);
    relates(pair, p7, 3, &[(6, Apart), (7, Apart), (8, NotKnown), (9, NotKnown)]);
    relates(pair, p7, 5, &[(6, NotKnown), (7, Apart), (8, NotKnown), (9, NotKnown)]);
    relates(pair, p7, 5, &[(10, Apart)]);
}

fn words_and_writes(pair: &mut Pair) {
    let mut becomes = |rows: &str, last: &str, result: &str, touched: u64| {
        let [input, result] = [last, result].map(|end| table(&format!("{rows} {end}")));
        runs(pair, &input, accepted(0, touched, 0), Some(&result));
    };
    let p8 = "width 8; VAR 0 255; SHIFT 0 5; SHIFT 0 3;";
    becomes(p8, "DIFF 1 2 0 @3; DIFF 2 1 0 @2", "CONST 2 @3; CONST 254 @2", 5);
    let p9 = "width 64; VAR 0 18446744073709551615; SHIFT 0 18446744073709551615;";
    becomes(p9, "SHIFT 1 1 @16777216", "SHIFT 0 0 @16777216", 3);
    let p10 = "width 8; FRESH; VAR 0 255; WRITE 0 1 1;";
    becomes(p10, "WRITE 2 1 1 @65535", "WRITE 0 1 1 @65535", 4);
}

fn run_line(pair: &mut Pair) {
    let header = |width: u8| [0x46, 0x54, width, 0, 0, 0];
    runs(pair, &header(0), refused(3, 0), None);
    runs(pair, &header(65), refused(3, 0), None);
    runs(pair, &header(1), accepted(0, 0, 0), Some(&header(1)));
    runs(pair, &header(64), accepted(0, 0, 0), Some(&header(64)));

    let fresh_rows = |count: usize| {
        let sources: Vec<u32> = (0..count as u32).collect();
        table_bytes(Width::new(8).unwrap(), &vec![Row::Fresh; count], &sources)
    };
    runs(pair, &fresh_rows(MOST_ROWS + 1), refused(4, 0), None);
    let full = fresh_rows(MOST_ROWS);
    runs(pair, &full, accepted(0, 1024, 0), Some(&full));
    pair.expect(full.len() == 30_726, || format!("{} bytes in 1,024 rows", full.len()));
    runs(pair, &table("width 8; CONST 255"), accepted(0, 1, 0), None);
    runs(pair, &table("width 8; CONST 256"), refused(12, 0), None);
    runs(pair, &table("width 8; VAR 0 9; SHIFT 1 0"), refused(13, 1), None);
}
