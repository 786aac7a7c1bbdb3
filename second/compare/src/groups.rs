//! One generated table and the calls made on it.

use crate::damage::{damaged, result_slice, row_number};
use crate::edited::Edited;
use crate::meaning::{decoded, World};
use crate::pair::{hex, Pair};
use crate::recount::Left;
use crate::replacement::replacement;
use crate::{kept, limits, names, pieces, questions, sources, spent, walks};
use second::{Row, Width};
use tables::machine::Stack;
use tables::random::Random;
use tables::sources::numbered;
use tables::{chain, crossing, machine, stores, wellformed};

/// Evaluation walks arrays step by step, so it is left to small tables.
pub const MOST_ROWS_EVALUATED: usize = 64;

pub fn cases(pair: &mut Pair, number: u64) {
    pair.group = format!("group {number}");
    let random = &mut Random::stream(pair.seed, number);
    let width = random.width();
    let rows = some_rows(random, width, number);
    let table = numbered(random, width, &rows);
    let limit = limits::some(random, rows.len());

    sources::runs(pair, random, &table, limit);
    let mut result = vec![0; table.len()];
    let compared = second::run(&table, &mut result, limit).compared;

    Left { table: &table, result: &result, limit, compared }.by_run(pair);
    if rows.len() <= MOST_ROWS_EVALUATED {
        keeps_meaning(pair, random, &table, &result);
    }
    questions::over_own(pair, random, &table, &result, 4);
    questions::over_foreign(pair, random, &table, &result);
    questions::over_twins(pair, random, &table, &result);
    questions::over_deep(pair, random, number);
    own_edits(pair, random, table.clone(), result.clone(), limit);
    for _ in 0..2 {
        foreign_edit(pair, random, &table, &result);
    }
    for _ in 0..2 {
        damaged_calls(pair, random, width, &table, &result);
    }
    sources::cases(pair, random, &table, &result, limit);
    walks::cases(pair, random, &table);
    names::cases(pair, random, number);
    pieces::generated(pair, random);
    spent::cases(pair, random, number);
}

/// Most tables are small; every size up to 1,024 has its turn.
fn size(random: &mut Random, number: u64) -> usize {
    match number {
        _ if number % 400 == 0 => 1024,
        _ if number % 200 == 1 => random.from_to(900, 1024) as usize,
        _ if number % 40 == 2 => random.from_to(100, 900) as usize,
        _ if number % 5 == 3 => random.from_to(24, 100) as usize,
        _ => random.from_to(0, 24) as usize,
    }
}

/// The rows of table `number`.
pub fn some_rows(random: &mut Random, width: Width, number: u64) -> Vec<Row> {
    let count = size(random, number);
    match random.below(14) {
        0 => chain::rows(width, count),
        13 => stores::rows(random, width, count),
        1..=4 => {
            let habits = machine::Habits {
                heap: random.one_in(2),
                pointers_one_in: random.pick(&[0, 4, 12, 40]),
                re_entries_one_in: random.pick(&[0, 2, 6, 20]),
                names: random.pick(&[[0, 0], [1, 2], [3, 259], [65_535, 0]]),
                stack: random.pick(&[Stack::High, Stack::High, Stack::AtZero, Stack::Anywhere]),
            };
            machine::rows(random, width, count, habits)
        }
        5..=7 => crossing::rows(random, width, count),
        _ => wellformed::rows(random, width, count),
    }
}

pub fn keeps_meaning(pair: &mut Pair, random: &mut Random, table: &[u8], result: &[u8]) {
    let ((width, rows), (_, result_rows)) = (decoded(table), decoded(result));
    for _ in 0..3 {
        let world = World::new(random, width, &rows);
        let wrong = world.first_wrong(random, &rows, &result_rows);
        pair.expect(wrong.is_none(), || {
            format!(
                "row {} of the result means something else: table {}",
                wrong.unwrap(),
                hex(table)
            )
        });
    }
}

/// A chain of edits with the table's own kept result and the limit that it was made with, or a limit
/// that is refused.
pub fn own_edits(
    pair: &mut Pair, random: &mut Random, mut table: Vec<u8>, mut kept: Vec<u8>, limit: u64,
) {
    let behind = if random.one_in(4) { 1 + random.below(60) } else { 0 };
    kept.extend(random.bytes(behind));
    for _ in 0..random.pick(&[2, 4, 8]) {
        let (width, rows) = decoded(&table);
        let number = row_number(random, &table);
        let replacement = replacement(random, width, &rows, &kept, number);
        let before = kept.clone();
        let limit = if random.one_in(40) { limits::refused(random) } else { limit };
        let answer = pair.edit(&mut table, &mut kept, number, &replacement, limit);
        if answer.refusal == 0 {
            let edited = Edited {
                row: number as usize,
                rows_before: &rows,
                table: &table,
                kept_before: &before,
                kept: &kept,
                limit,
                answer,
            };
            edited.is_a_fresh_run(pair);
            edited.leaves_others(pair);
            questions::over_own(pair, random, &table, &kept[..table.len()], 1);
        }
    }
}

/// An edit with a kept result that is not the table's own.
fn foreign_edit(pair: &mut Pair, random: &mut Random, table: &[u8], result: &[u8]) {
    let (width, _) = decoded(table);
    let mut kept = kept::foreign(random, table, result);
    let mut table = table.to_vec();
    // Several in turn: the outcome of the first stands when the second is judged.
    for _ in 0..2 {
        let number = row_number(random, &table);
        let (_, rows) = decoded(&table);
        let replacement = replacement(random, width, &rows, &kept, number);
        let limit = limits::any(random, rows.len());
        pair.edit(&mut table, &mut kept, number, &replacement, limit);
    }
}

/// Each call on a damaged table, at times with other faults beside it.
fn damaged_calls(pair: &mut Pair, random: &mut Random, width: Width, table: &[u8], result: &[u8]) {
    let wrong = damaged(random, width, table);
    let (_, rows) = decoded(table);
    let limit = limits::any(random, rows.len());
    sources::runs(pair, random, &wrong, limit);

    questions::over_damaged(pair, random, width, &wrong, result);
    walks::any_row(pair, random, &wrong);

    let mut wrong = wrong;
    let mut kept = match random.below(4) {
        0 => result_slice(random, &wrong),
        1 => damaged(random, width, result),
        _ => result.to_vec(),
    };
    let number = row_number(random, table);
    let replacement = replacement(random, width, &rows, &kept, number);
    pair.edit(&mut wrong, &mut kept, number, &replacement, limit);
}
