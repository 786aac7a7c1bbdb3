//! Tables with long runs of stores, and limits that their reads come to.

use crate::damage::row_number;
use crate::edited::Edited;
use crate::groups::{keeps_meaning, own_edits, MOST_ROWS_EVALUATED};
use crate::limits::{refused, some};
use crate::lines::List;
use crate::meaning::decoded;
use crate::pair::{hex, Pair};
use crate::questions;
use crate::replacement::replacement;
use crate::walks::reads;
use second::bytes::{place, row_bytes, sources};
use second::text::listed;
use second::{Row, HIGHEST_LIMIT};
use tables::random::Random;
use tables::sources::numbered;
use tables::stores;

/// Run with many limits, and asked and edited over a result made with one of them. At times a table is
/// about as large as can be.
pub fn cases(pair: &mut Pair, random: &mut Random, number: u64) {
    let large = number % 100 == 11;
    let width = random.width();
    let count = if large { random.from_to(800, 1024) } else { random.from_to(4, 40) };
    let rows = stores::rows(random, width, count as usize);
    let table = numbered(random, width, &rows);
    let lists = lists(&table);
    for limit in limits_for(random, rows.len()) {
        swept(pair, &table, lists.as_deref(), limit);
    }
    let limit = some(random, rows.len());
    let mut result = vec![0; table.len()];
    second::run(&table, &mut result, limit);
    if rows.len() <= MOST_ROWS_EVALUATED {
        keeps_meaning(pair, random, &table, &result);
    }
    questions::over_own(pair, random, &table, &result, 2);
    own_edits(pair, random, table.clone(), result.clone(), limit);
    edits_of_other_limits(pair, random, table, result);
}

fn limits_for(random: &mut Random, rows: usize) -> Vec<u64> {
    let rows = rows as u64;
    let [low, any] = [9, HIGHEST_LIMIT].map(|most| random.from_to(0, most));
    let some = vec![0, 1, 2, 3, low, any, rows, 1023, HIGHEST_LIMIT, refused(random)];
    some.into_iter().filter(|_| rows <= 64 || random.one_in(3)).collect()
}

/// Each list takes a fresh run, so only of tables with few reads they are made.
const MOST_LISTS: usize = 40;

/// The READ rows of a table, if there are not too many, and for each the stores that it is compared
/// with where nothing keeps it from it.
fn lists(table: &[u8]) -> Option<Vec<(usize, Vec<usize>)>> {
    let reads = reads(table);
    let lists = (reads.len() <= MOST_LISTS).then_some(reads)?.into_iter().map(|row| {
        let list = List::of(listed(table, row).as_bytes()).expect("a list as stated");
        (row as usize, list.stores.iter().map(|store| store.row).collect())
    });
    Some(lists.collect())
}

/// A run with a limit. Since no row refers to a read, it must differ from one with the highest in those
/// reads alone that have more stores to be compared with: each stands at the first that is left.
fn swept(pair: &mut Pair, table: &[u8], lists: Option<&[(usize, Vec<usize>)]>, limit: u64) {
    let [mut given, mut expected] = [(); 2].map(|_| vec![0; table.len()]);
    let answer = pair.run(table, &mut given, limit);
    pair.expect((answer.refusal == 0) == (limit <= HIGHEST_LIMIT), || {
        format!("{answer:?}, limit {limit}, for {}", hex(table))
    });
    let Some(lists) = lists.filter(|_| answer.refusal == 0) else { return };
    second::run(table, &mut expected, HIGHEST_LIMIT);
    let ((_, rows), (_, result)) = (decoded(table), decoded(&expected));
    let (at_most, sources) = (limit as usize, sources(table));
    let mut compared = 0;
    for (row, stores) in lists {
        compared += stores.len().min(at_most) as u64;
        let Row::Read { index, .. } = rows[*row] else { unreachable!("a list of a READ") };
        let Some(array) = stores.get(at_most).copied() else { continue };
        let index = match result[index] {
            Row::Shift { a, k: 0 } => a,
            _ => index,
        };
        let stands = row_bytes(Row::Read { array, index }, sources[*row]);
        expected[place(*row)].copy_from_slice(&stands);
    }
    pair.expect(given == expected && answer.compared == compared, || {
        format!("{answer:?}, not {compared} compared, limit {limit}, for {}", hex(table))
    });
}

/// Edits over a result that was made with one limit, each with another: the rows touched are worked
/// out within that, and all others stay. Each row still means what it must.
fn edits_of_other_limits(
    pair: &mut Pair, random: &mut Random, mut table: Vec<u8>, mut kept: Vec<u8>,
) {
    for _ in 0..3 {
        let (width, rows) = decoded(&table);
        let (row, limit) = (row_number(random, &table), some(random, rows.len()));
        let replacement = replacement(random, width, &rows, &kept, row);
        let before = kept.clone();
        let answer = pair.edit(&mut table, &mut kept, row, &replacement, limit);
        if answer.refusal == 0 {
            let edited = Edited {
                row: row as usize,
                rows_before: &rows,
                table: &table,
                kept_before: &before,
                kept: &kept,
                limit,
                answer,
            };
            edited.leaves_others(pair);
            if rows.len() <= MOST_ROWS_EVALUATED {
                keeps_meaning(pair, random, &table, &kept);
            }
        }
    }
}
