//! What rows mean under a choice of variables and array contents: a check of the rules
//! themselves, which both programs share.

use second::bytes::numbers;
use second::check::{check_header, check_rows};
use second::{Ref, Row, Sort, Width};
use std::collections::HashMap;
use tables::random::Random;

pub fn decoded(table: &[u8]) -> (Width, Vec<Row>) {
    let header = check_header(table).expect("accepted before");
    (header.width, check_rows(table, header).expect("accepted before"))
}

/// A permitted value for each variable, the same in all rows of its name, and a content for each
/// fresh array.
pub struct World {
    width: Width,
    seed: u64,
    variables: Vec<u64>,
}

impl World {
    pub fn new(random: &mut Random, width: Width, rows: &[Row]) -> World {
        // One value for all variables that permit it, so that different terms meet.
        let shared = random.word(width);
        let mut choose = |low: u64, high: u64| match random.below(6) {
            0 => low,
            1 => high,
            2 => shared.clamp(low, high),
            3 => low + random.from_to(0, (high - low).min(9)),
            _ => random.from_to(low, high),
        };
        let mut named = HashMap::new();
        let variables = rows
            .iter()
            .map(|row| match (*row, row.name()) {
                (Row::Var { low, high, .. }, None) => choose(low, high),
                (Row::Var { low, high, .. }, Some(name)) => {
                    *named.entry(name).or_insert_with(|| choose(low, high))
                }
                _ => 0,
            })
            .collect();
        World { width, seed: random.draw(), variables }
    }

    fn content(&self, fresh: Ref, index: u64) -> u64 {
        let mut hash = Random::stream(self.seed ^ fresh as u64, index);
        hash.word(self.width)
    }

    /// The element of an array row, given what the words before it mean.
    fn element(&self, rows: &[Row], words: &[u64], array: Ref, index: u64) -> u64 {
        let mut array = array;
        while let Row::Write { array: below, index: at, value } = rows[array] {
            if words[at] == index {
                return words[value];
            }
            array = below;
        }
        self.content(array, index)
    }

    /// The value of each word row; 0 stands at array rows.
    pub fn words(&self, rows: &[Row]) -> Vec<u64> {
        let mut words: Vec<u64> = Vec::with_capacity(rows.len());
        for (number, row) in rows.iter().enumerate() {
            let (_, [a, b, _], [k, _]) = numbers(*row);
            let total = match *row {
                Row::Const { .. } => k,
                Row::Var { .. } => self.variables[number],
                Row::Shift { .. } => words[a].wrapping_add(k),
                Row::Sum { .. } => words[a].wrapping_add(words[b]).wrapping_add(k),
                Row::Diff { .. } => words[a].wrapping_sub(words[b]).wrapping_add(k),
                Row::Neg { .. } => k.wrapping_sub(words[a]),
                Row::Read { .. } => self.element(rows, &words, a, words[b]),
                Row::Fresh | Row::Write { .. } => 0,
            };
            words.push(total & self.width.largest());
        }
        words
    }

    /// The first row whose result means something else.
    pub fn first_wrong(&self, random: &mut Random, rows: &[Row], result: &[Row]) -> Option<Ref> {
        let (words, result_words) = (self.words(rows), self.words(result));
        let mut indexes = words.clone();
        indexes.extend((0..4).map(|_| random.word(self.width)));
        (0..rows.len()).find(|row| match rows[*row].sort() {
            Sort::Word => words[*row] != result_words[*row],
            Sort::Array => indexes.iter().any(|index| {
                self.element(rows, &words, *row, *index)
                    != self.element(result, &result_words, *row, *index)
            }),
        })
    }
}
