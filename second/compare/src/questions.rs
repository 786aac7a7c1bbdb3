//! Questions about two rows: over a table's own result, over others, and over what is no result.

use crate::damage::{damaged, result_slice, row_number};
use crate::groups::MOST_ROWS_EVALUATED;
use crate::kept::{foreign, of_any_length, others, with_twins, word_rows};
use crate::meaning::{decoded, World};
use crate::pair::{hex, Pair};
use crate::reasons::Given;
use second::bytes::MOST_ROWS;
use second::{Comparison, Ref, Relation, Row, Sort, Width};
use tables::deep::{self, Habits};
use tables::random::Random;
use tables::sources::numbered;

/// Over the result that a table's fresh run, or an edit of it, left.
pub fn over_own(pair: &mut Pair, random: &mut Random, table: &[u8], result: &[u8], times: usize) {
    let (width, rows) = decoded(table);
    for _ in 0..times {
        let numbers = two_rows(random, table, &rows);
        let kept = of_any_length(random, result, table.len());
        let comparison = pair.ask(table, &kept, numbers);
        if rows.len() <= MOST_ROWS_EVALUATED {
            Told { comparison, numbers, width, rows: &rows }.is_true(pair, random);
        }
    }
}

/// Over another than its own result: what is told is true of the rows that stand there.
pub fn over_foreign(pair: &mut Pair, random: &mut Random, table: &[u8], result: &[u8]) {
    let (width, rows) = decoded(table);
    let kept = foreign(random, table, result);
    for _ in 0..3 {
        let numbers = two_rows(random, table, &rows);
        let comparison = pair.ask(table, &kept, numbers);
        if comparison.answer.refusal != 0 {
            continue;
        }
        let own = second::ask(table, result, numbers[0], numbers[1]);
        pair.tally.add_foreign(own.relation() != comparison.relation());
        if rows.len() <= MOST_ROWS_EVALUATED {
            let rows = nameless(decoded(&kept[..table.len()]).1);
            Told { comparison, numbers, width, rows: &rows }.is_true(pair, random);
        }
    }
}

/// Over rows of which two are alike or nearly so.
pub fn over_twins(pair: &mut Pair, random: &mut Random, table: &[u8], result: &[u8]) {
    let from = if random.one_in(2) { table } else { result };
    let Some((kept, [one, other])) = with_twins(random, from) else { return };
    let (width, rows) = decoded(&kept);
    let rows = nameless(rows);
    for numbers in [[one, other], [other, one]] {
        let numbers = numbers.map(|row| row as u64);
        let comparison = pair.ask(table, &kept, numbers);
        if rows.len() <= MOST_ROWS_EVALUATED {
            Told { comparison, numbers, width, rows: &rows }.is_true(pair, random);
        }
    }
}

/// Over rows that lean on one another all the way up, at times as many as there can be. The last is
/// a constant beside the top.
pub fn over_deep(pair: &mut Pair, random: &mut Random, number: u64) {
    let width = random.width();
    let count = if number % 20 == 9 { MOST_ROWS as u64 } else { random.from_to(3, 80) };
    let one_array_in = random.pick(&[8, 2 * MOST_ROWS]);
    let sorts: Vec<Sort> = (0..count)
        .map(|_| if random.one_in(one_array_in) { Sort::Array } else { Sort::Word })
        .collect();
    let stride = random.pick(&[1, 1, 1, 2, 3, 17, 63, 64, 65, 130]);
    let habits = Habits { stride, variables: random.one_in(2) };
    let mut rows = nameless(deep::rows(random, width, &sorts, habits));
    let words = word_rows(&rows);
    let [.., top, last] = words[..] else { return };
    let means = World::new(random, width, &rows).words(&rows);
    let step = random.pick(&[0, 0, 1, 2, width.largest()]) & width.largest();
    rows[last] = Row::Const { k: width.add(means[top], step) };

    let (table, kept) = (others(random, width, &sorts), numbered(random, width, &rows));
    let any: [Ref; 4] = std::array::from_fn(|_| random.pick(&words));
    for numbers in [[top, last], [last, top], [any[0], top], [any[1], last], [any[2], any[3]]] {
        let numbers = numbers.map(|row| row as u64);
        let comparison = pair.ask(&table, &kept, numbers);
        let told = Told { comparison, numbers, width, rows: &rows };
        told.is_true(pair, random);
        if !habits.variables {
            told.is_all_that_values_tell(pair, random);
        }
        pair.expect(comparison.answer.refusal == 0, || told.described("refused"));
    }
}

/// Over a table with faults, and beside it what may be no result.
pub fn over_damaged(pair: &mut Pair, random: &mut Random, width: Width, wrong: &[u8], kept: &[u8]) {
    let kept = match random.below(5) {
        0 => result_slice(random, wrong),
        1 => damaged(random, width, kept),
        2 => wrong.to_vec(),
        _ => of_any_length(random, kept, wrong.len()),
    };
    for _ in 0..2 {
        let numbers = [(); 2].map(|_| row_number(random, wrong));
        pair.ask(wrong, &kept, numbers);
    }
}

/// Mostly of words, at times one and the same, at times of an array or of no row.
pub fn two_rows(random: &mut Random, table: &[u8], rows: &[Row]) -> [u64; 2] {
    let words = word_rows(rows);
    let [first, second] = [(); 2].map(|_| match random.below(8) {
        0..=6 if !words.is_empty() => random.pick(&words) as u64,
        _ => row_number(random, table),
    });
    [first, if random.one_in(12) { first } else { second }]
}

/// The rows with each variable on its own, as a question has them.
fn nameless(rows: Vec<Row>) -> Vec<Row> {
    let alone = |row| match row {
        Row::Var { low, high, .. } => Row::Var { name: 0, low, high },
        other => other,
    };
    rows.into_iter().map(alone).collect()
}

/// What was told of two rows, and rows that have their meaning.
struct Told<'t> {
    comparison: Comparison,
    numbers: [u64; 2],
    width: Width,
    rows: &'t [Row],
}

impl Told<'_> {
    /// What the two rows are in some world; none on a refusal.
    fn words(&self, random: &mut Random) -> Option<[u64; 2]> {
        let accepted = self.comparison.answer.refusal == 0;
        accepted.then(|| {
            let means = World::new(random, self.width, self.rows).words(self.rows);
            self.numbers.map(|row| means[row as usize])
        })
    }

    fn is_true(&self, pair: &mut Pair, random: &mut Random) {
        let given = Given::read(&self.comparison.reason.to_string());
        for _ in 0..2 {
            let Some(words) = self.words(random) else { return };
            let right = match self.comparison.relation() {
                Relation::NotKnown => true,
                Relation::Same => words[0] == words[1],
                Relation::Apart => words[0] != words[1],
            };
            let reason = given.as_ref().is_some_and(|given| given.true_of(self.width, words));
            pair.expect(right && reason, || self.described("not true"));
        }
    }

    /// Of rows that have one value each, equal ones are not apart, and all others are.
    fn is_all_that_values_tell(&self, pair: &mut Pair, random: &mut Random) {
        let Some([first, second]) = self.words(random) else { return };
        let apart = self.comparison.relation() == Relation::Apart;
        pair.expect(apart == (first != second), || self.described("not all that is known"));
    }

    fn described(&self, fault: &str) -> String {
        let Told { comparison, numbers: [first, second], width, rows } = self;
        let sources = vec![0; rows.len()];
        let rows = hex(&second::bytes::table_bytes(*width, rows, &sources));
        format!("{comparison:?} of rows {first} and {second} is {fault}: {rows}")
    }
}
