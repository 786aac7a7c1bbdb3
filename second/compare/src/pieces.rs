//! Ranges in two pieces: tables small enough to be worked out by hand, and generated ones.

use crate::groups::{keeps_meaning, own_edits};
use crate::pair::Pair;
use crate::paper::{accepted, relates, runs, table};
use crate::walks::{self, lists};
use crate::{limits, questions};
use second::Relation::{Apart, NotKnown};
use second::Width;
use tables::crossing;
use tables::random::Random;
use tables::sources::numbered;

/// At width 1 pieces always touch; at the next there is room for one gap.
const WIDTHS: [u8; 8] = [1, 2, 3, 8, 16, 32, 63, 64];

/// A small table whose ranges cross zero: run, asked, edited, and all its reads listed.
pub fn generated(pair: &mut Pair, random: &mut Random) {
    let width = Width::new(random.pick(&WIDTHS)).expect("1 to 64");
    let count = random.from_to(8, 32) as usize;
    let rows = crossing::rows(random, width, count);
    let table = numbered(random, width, &rows);
    let limit = limits::some(random, rows.len());
    let mut result = vec![0; table.len()];
    pair.run(&table, &mut result, limit);
    keeps_meaning(pair, random, &table, &result);
    questions::over_own(pair, random, &table, &result, 4);
    questions::over_foreign(pair, random, &table, &result);
    walks::cases(pair, random, &table);
    own_edits(pair, random, table, result, limit);
}

pub fn cases(pair: &mut Pair) {
    pair.group = "ranges in two pieces".into();
    stack(pair);
    sums(pair);
    negations(pair);
    ends_of_the_word(pair);
    listed(pair);
}

/// A stack in 0..20, stored to 8 below, 4 below and at 8 above: the reads at 100, in the gap, and in
/// a heap in 30..200 pass all three; those at 12 and at 248 may meet one.
fn stack(pair: &mut Pair) {
    let rows =
        "width 8; VAR 0 20; FRESH; CONST 7; CONST 100; WRITE 1 3 2; SHIFT 0 248; WRITE 4 5 2; \
        SHIFT 0 252; WRITE 6 7 0; SHIFT 0 8; WRITE 8 9 0; VAR 30 200; CONST 12; CONST 248; \
        CONST 29; CONST 247;";
    let reads = "READ 10 3; READ 6 11; READ 10 12; READ 10 13; READ 6 14; READ 8 15; READ 6 15";
    let result = "CONST 7; READ 4 11; READ 10 12; READ 6 13; READ 1 14; READ 1 15; READ 1 15";
    let [input, result] = [reads, result].map(|reads| table(&format!("{rows} {reads}")));
    runs(pair, &input, accepted(1, 23, 17), Some(&result));
}

/// Each result of a sum goes into the next as one or two pieces.
fn sums(pair: &mut Pair) {
    // Rows 1 and 3 are 0..0, 251..255 and 0..0, 253..255; their sum is 0..0, 248..255, and a sum
    // with row 5, 0..2, is 0..2, 248..255.
    let two = "width 8; VAR 0 5; NEG 0 0; VAR 0 3; NEG 2 0; SUM 1 3 0; VAR 0 2; SUM 4 5 0; \
        CONST 0; CONST 1; CONST 2; CONST 3; CONST 247; CONST 248; CONST 254; CONST 255";
    let inside = [(7, NotKnown), (12, NotKnown), (13, NotKnown), (14, NotKnown)];
    relates(pair, two, 4, &inside);
    relates(pair, two, 4, &[(8, Apart), (9, Apart), (10, Apart), (11, Apart)]);
    relates(pair, two, 6, &inside);
    relates(pair, two, 6, &[(8, NotKnown), (9, NotKnown), (10, Apart), (11, Apart)]);

    // 0..100 and 200..255, twice: the four sums leave nothing out.
    let full =
        "width 8; VAR 0 156; SHIFT 0 200; NEG 0 100; SUM 2 2 0; CONST 101; CONST 150; CONST 199";
    relates(pair, full, 1, &[(4, Apart), (5, Apart), (6, Apart)]);
    relates(pair, full, 2, &[(4, Apart), (5, Apart), (6, Apart)]);
    relates(pair, full, 3, &[(4, NotKnown), (5, NotKnown), (6, NotKnown)]);

    // The difference of 0..3 and 0..5 is 0..3, 251..255.
    let difference =
        "width 8; VAR 0 3; VAR 0 5; DIFF 0 1 0; CONST 3; CONST 4; CONST 250; CONST 251";
    relates(pair, difference, 2, &[(3, NotKnown), (4, Apart), (5, Apart), (6, NotKnown)]);
}

/// 9 less 0..5 is 9 and 4..8, which touch.
fn negations(pair: &mut Pair) {
    let touching = "width 8; VAR 0 5; NEG 0 9; CONST 3; CONST 4; CONST 8; CONST 9; CONST 10";
    relates(pair, touching, 1, &[(2, Apart), (3, NotKnown), (4, NotKnown), (5, NotKnown)]);
    relates(pair, touching, 1, &[(6, Apart)]);
    // 2 less 0..5 is 0..2 and 253..255.
    let crossing = "width 8; VAR 0 5; NEG 0 2; CONST 0; CONST 2; CONST 3; CONST 252; CONST 253";
    relates(pair, crossing, 1, &[(2, NotKnown), (3, NotKnown), (4, Apart), (5, Apart)]);
    relates(pair, crossing, 1, &[(6, NotKnown)]);
    // Of 0..255 nothing is left out, of 0..254 only 1.
    let all = "width 8; VAR 0 255; NEG 0 0; VAR 0 254; NEG 2 0; CONST 0; CONST 1; CONST 2";
    relates(pair, all, 1, &[(4, NotKnown), (5, NotKnown), (6, NotKnown)]);
    relates(pair, all, 3, &[(4, NotKnown), (5, Apart), (6, NotKnown)]);
}

/// The narrowest gaps, at the narrowest and the widest words.
fn ends_of_the_word(pair: &mut Pair) {
    let bit = "width 1; VAR 0 1; NEG 0 0; SHIFT 0 1; CONST 0; CONST 1";
    relates(pair, bit, 1, &[(3, NotKnown), (4, NotKnown)]);
    relates(pair, bit, 2, &[(3, NotKnown), (4, NotKnown)]);
    let two_bits = "width 2; VAR 0 1; NEG 0 0; CONST 0; CONST 1; CONST 2; CONST 3";
    relates(pair, two_bits, 1, &[(2, NotKnown), (3, Apart), (4, Apart), (5, NotKnown)]);
    let widest = "width 64; VAR 18446744073709551614 18446744073709551615; SHIFT 0 1; CONST 0; \
        CONST 1; CONST 18446744073709551614; CONST 18446744073709551615";
    relates(pair, widest, 1, &[(2, NotKnown), (3, Apart), (4, Apart), (5, NotKnown)]);
}

fn listed(pair: &mut Pair) {
    // Row 2 of P2, stored at and read at.
    let p2 = table(
        "width 8; VAR 0 250; FRESH; SHIFT 0 248 @6; CONST 245 @7; WRITE 1 2 3 @8; READ 4 3 @9; \
        WRITE 1 3 3 @10; READ 6 2 @11",
    );
    let stored = "instruction 9: read 5, array 4, index 3\n\
        instruction 8: store 4, index 2 against 3, separate ranges, 0..242, 248..255 and 245..245\n\
        stands on array 1\n\
        result 5 7 1 3 0 0 0 9\n";
    lists(pair, &p2, 5, stored);
    let read = "instruction 11: read 7, array 6, index 2\n\
        instruction 10: store 6, index 3 against 2, separate ranges, 245..245 and 0..242, 248..255\n\
        stands on array 1\n\
        result 7 7 1 2 0 0 0 11\n";
    lists(pair, &p2, 7, read);

    // 9 less 0..5: pieces that touch are one.
    let touching = table("width 8; VAR 0 5; NEG 0 9; FRESH; CONST 3; WRITE 2 1 3; READ 4 3");
    let joined = "instruction 0: read 5, array 4, index 3\n\
        instruction 0: store 4, index 1 against 3, separate ranges, 4..9 and 3..3\n\
        stands on array 2\n\
        result 5 7 2 3 0 0 0 0\n";
    lists(pair, &touching, 5, joined);
}
