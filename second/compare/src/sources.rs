//! Instruction numbers have no influence: of lent bytes that differ in them alone, a call gives one
//! answer, and what it leaves differs in them alone, each row having the number that it must carry.

use crate::damage::{result_slice, row_number};
use crate::leads::worked_out_anew;
use crate::lines::without_sources;
use crate::meaning::decoded;
use crate::pair::{hex, Pair};
use crate::replacement::replacement;
use crate::walks::reads;
use second::bytes::{place, sources, HEADER, ROW, SOURCE};
use second::text::listed;
use second::Answer;
use tables::random::Random;

/// Bytes, a table or not, with other numbers in each whole row.
pub fn renumbered(random: &mut Random, bytes: &[u8]) -> Vec<u8> {
    let rows = bytes.len().saturating_sub(HEADER) / ROW;
    with_sources(bytes, &tables::sources::sources(random, rows))
}

/// Bytes with these numbers in their first rows.
fn with_sources(bytes: &[u8], sources: &[u32]) -> Vec<u8> {
    let mut bytes = bytes.to_vec();
    for (row, source) in sources.iter().enumerate() {
        bytes[place(row)][SOURCE..].copy_from_slice(&source.to_le_bytes());
    }
    bytes
}

/// Of a table and its own result, made with this limit.
pub fn cases(pair: &mut Pair, random: &mut Random, table: &[u8], result: &[u8], limit: u64) {
    questions(pair, random, table, result);
    lists(pair, random, table);
    edits(pair, random, table, result, limit);
}

/// Fresh runs of bytes that may be no table.
pub fn runs(pair: &mut Pair, random: &mut Random, table: &[u8], limit: u64) {
    one_answer(pair, random, table, |pair, table, result| (pair.run(table, result, limit), ()));
}

fn questions(pair: &mut Pair, random: &mut Random, table: &[u8], result: &[u8]) {
    let numbers = [(); 2].map(|_| row_number(random, table));
    let one = pair.ask(table, result, numbers);
    let [table, kept] = [table, result].map(|bytes| renumbered(random, bytes));
    let other = pair.ask(&table, &kept, numbers);
    pair.expect(one == other, || format!("{one:?} and {other:?} for {}", hex(&table)));
}

fn lists(pair: &mut Pair, random: &mut Random, table: &[u8]) {
    let reads = reads(table);
    if reads.is_empty() {
        return;
    }
    let row = random.pick(&reads);
    one_answer(pair, random, table, |pair, table, result| {
        let list = listed(table, row);
        let listing = pair.why(table, result, row, &mut vec![0; list.len()]);
        (listing.answer, without_sources(&list))
    });
}

/// Makes a call that stands on a fresh run with two tables.
fn one_answer<T: PartialEq>(
    pair: &mut Pair, random: &mut Random, table: &[u8],
    call: impl Fn(&mut Pair, &[u8], &mut [u8]) -> (Answer, T),
) {
    let tables = [table.to_vec(), renumbered(random, table)];
    let slice = result_slice(random, table);
    let [one, other] = tables.each_ref().map(|table| {
        let mut result = slice.clone();
        (call(pair, table, &mut result), result)
    });
    let (given, results) = ([&one.0, &other.0], [&one.1, &other.1]);
    let carried = tables.iter().zip(results).all(|(table, result)| {
        let accepted = given[0].0.refusal == 0;
        *result == if accepted { with_sources(results[0], &sources(table)) } else { slice.clone() }
    });
    pair.expect(given[0] == given[1] && carried, || {
        format!(
            "not alike but for instruction numbers: {} and {}",
            hex(&tables[0]),
            hex(&tables[1])
        )
    });
}

/// What an edit is lent.
struct Edit {
    table: Vec<u8>,
    kept: Vec<u8>,
    replacement: Vec<u8>,
}

impl Edit {
    fn renumbered(&self, random: &mut Random) -> Edit {
        let [table, kept] = [&self.table, &self.kept].map(|bytes| renumbered(random, bytes));
        let mut replacement = self.replacement.clone();
        if let Some(source) = replacement.get_mut(SOURCE..ROW) {
            source.copy_from_slice(&random.source().to_le_bytes());
        }
        Edit { table, kept, replacement }
    }
}

/// One edit, with the table's own kept result as it is and with other numbers everywhere.
fn edits(pair: &mut Pair, random: &mut Random, table: &[u8], result: &[u8], limit: u64) {
    let (width, rows) = decoded(table);
    let number = row_number(random, table);
    let replacement = replacement(random, width, &rows, result, number);
    let one = Edit { table: table.to_vec(), kept: result.to_vec(), replacement };
    let before = [one.renumbered(random), one];
    let after = before.each_ref().map(|Edit { table, kept, replacement }| {
        let (mut table, mut kept) = (table.clone(), kept.clone());
        let answer = pair.edit(&mut table, &mut kept, number, replacement, limit);
        (answer, table, kept)
    });
    let [(answer, table, kept), (other, ..)] = &after;
    pair.expect(answer == other, || format!("{answer:?} and {other:?} for {}", hex(table)));
    if answer.refusal != 0 {
        return;
    }
    let edited = number as usize;
    let anew = worked_out_anew(&rows, &decoded(table).1, edited);
    for (lent, (_, left_table, left_kept)) in before.iter().zip(&after) {
        let mut own = sources(&lent.table);
        own[edited] = u32::from_le_bytes(lent.replacement[SOURCE..].try_into().unwrap());
        let mut carried = sources(&lent.kept);
        (0..rows.len()).filter(|row| anew[*row]).for_each(|row| carried[row] = own[row]);
        let right =
            *left_table == with_sources(table, &own) && *left_kept == with_sources(kept, &carried);
        pair.expect(right, || {
            let [lent, with] = [&lent.table, &lent.kept].map(|bytes| hex(bytes));
            format!("wrong instruction numbers after an edit of row {edited}: {lent} and {with}")
        });
    }
}
