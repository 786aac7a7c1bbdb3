//! Tables whose ranges cross zero: variables near both ends of the words, places a little beside
//! them, their sums, differences and negations, and other places at the ends of those ranges and in
//! their gaps; stores at some, reads at others.

use crate::random::Random;
use second::{Ref, Row, Width};

/// Words in a circle, 0 behind the largest: one and so many more. Rows have values in such
/// stretches, as far as this table needs to know.
#[derive(Clone, Copy)]
struct Stretch {
    from: u64,
    more: u64,
}

impl Stretch {
    fn last(self, width: Width) -> u64 {
        width.add(self.from, self.more)
    }

    fn moved(self, width: Width, by: u64) -> Stretch {
        Stretch { from: width.add(self.from, by), ..self }
    }

    fn plus(self, other: Stretch, width: Width) -> Stretch {
        let more = self.more as u128 + other.more as u128;
        let more = more.min(width.largest() as u128) as u64;
        Stretch { from: width.add(self.from, other.from), more }
    }

    fn negated(self, width: Width) -> Stretch {
        Stretch { from: width.sub(0, self.last(width)), ..self }
    }

    /// How many words are left out.
    fn gap(self, width: Width) -> u64 {
        width.largest() - self.more
    }

    fn crosses(self, width: Width) -> bool {
        self.more > width.largest() - self.from && self.gap(width) > 0
    }
}

struct Crossing<'r> {
    random: &'r mut Random,
    width: Width,
    rows: Vec<Row>,
    words: Vec<(Ref, Stretch)>,
    memory: Ref,
}

pub fn rows(random: &mut Random, width: Width, count: usize) -> Vec<Row> {
    let (rows, words) = (vec![Row::Fresh], Vec::new());
    let mut table = Crossing { random, width, rows, words, memory: 0 };
    table.variable();
    while table.rows.len() < count {
        table.step();
    }
    table.rows.truncate(count);
    table.rows
}

impl Crossing<'_> {
    fn push(&mut self, row: Row) -> Ref {
        self.rows.push(row);
        self.rows.len() - 1
    }

    fn word(&mut self, row: Row, stretch: Stretch) {
        let number = self.push(row);
        self.words.push((number, stretch));
    }

    fn step(&mut self) {
        match self.random.below(16) {
            0 => self.variable(),
            1 => self.beside_a_gap(),
            2..=4 => self.moved(),
            5 => self.negated(),
            6 | 7 => self.both(),
            8 => self.edge(),
            9..=11 => {
                let (index, _) = self.crossing();
                self.store(index);
            }
            12 if self.random.one_in(4) => self.memory = self.push(Row::Fresh),
            12 | 13 => {
                let (index, _) = self.any();
                self.store(index);
            }
            _ => {
                let (index, _) = if self.random.one_in(3) { self.any() } else { self.narrow() };
                let array = self.memory;
                let all = Stretch { from: 0, more: self.width.largest() };
                self.word(Row::Read { array, index }, all);
            }
        }
    }

    fn any(&mut self) -> (Ref, Stretch) {
        self.random.pick(&self.words)
    }

    /// Most often a word that may lie in another's gap.
    fn narrow(&mut self) -> (Ref, Stretch) {
        let some: Vec<(Ref, Stretch)> = (0..4).map(|_| self.any()).collect();
        let narrowest = some.into_iter().min_by_key(|(_, stretch)| stretch.more);
        narrowest.expect("four words")
    }

    /// Most often a word whose range crosses zero, or a narrow one.
    fn crossing(&mut self) -> (Ref, Stretch) {
        crossing_among(self.random, self.width, &self.words)
    }

    /// Most often one that is a sum, a difference or a negation too: what a sum names is such a row
    /// itself, but of a place beside a variable the variable.
    fn compound(&mut self) -> (Ref, Stretch) {
        let compound =
            |row: Row| matches!(row, Row::Sum { .. } | Row::Diff { .. } | Row::Neg { .. });
        let words = self.words.iter().filter(|(row, _)| compound(self.rows[*row]));
        let compounds: Vec<(Ref, Stretch)> = words.copied().collect();
        if compounds.is_empty() || self.random.one_in(3) {
            return self.crossing();
        }
        crossing_among(self.random, self.width, &compounds)
    }

    /// A small step up or down, or none.
    fn little(&mut self) -> u64 {
        let by = self.random.from_to(0, 9);
        let k = if self.random.one_in(2) { by } else { 0u64.wrapping_sub(by) };
        k & self.width.largest()
    }

    /// From 0 on, or up to the largest word; or anywhere.
    fn variable(&mut self) {
        let largest = self.width.largest();
        let widest = self.random.pick(&[9, largest / 8, largest / 2, largest]).min(largest);
        let more = self.random.from_to(0, widest);
        let from = match self.random.below(5) {
            0 | 1 => 0,
            2 | 3 => largest - more,
            _ => self.random.from_to(0, largest - more),
        };
        self.bounded(Stretch { from, more });
    }

    fn bounded(&mut self, stretch: Stretch) {
        let Stretch { from, more } = stretch;
        self.word(Row::Var { name: 0, low: from, high: from + more }, stretch);
    }

    /// A variable in the gap of a word's range, or as far into it as goes without crossing zero.
    fn beside_a_gap(&mut self) {
        let (_, stretch) = self.crossing();
        let gap = stretch.gap(self.width);
        if gap > 0 {
            let skipped = self.random.pick(&[0, 0, gap / 2]);
            let from = self.width.add(stretch.last(self.width), 1 + skipped);
            let most = (gap - skipped).min(self.width.largest() - from + 1);
            let more = self.random.pick(&[0, most / 2, most - 1]).min(most - 1);
            self.bounded(Stretch { from, more });
        }
    }

    fn moved(&mut self) {
        let (a, stretch) = self.any();
        let k = self.little();
        self.word(Row::Shift { a, k }, stretch.moved(self.width, k));
    }

    fn negated(&mut self) {
        let (a, stretch) = self.crossing();
        let k = self.little();
        self.word(Row::Neg { a, k }, stretch.negated(self.width).moved(self.width, k));
    }

    /// A sum or a difference of two words.
    fn both(&mut self) {
        let ((a, one), (b, other)) = (self.compound(), self.compound());
        let (k, width) = (self.little(), self.width);
        if self.random.one_in(2) {
            self.word(Row::Sum { a, b, k }, one.plus(other, width).moved(width, k));
        } else {
            let other = other.negated(width);
            self.word(Row::Diff { a, b, k }, one.plus(other, width).moved(width, k));
        }
    }

    /// A constant at an end of a word's range, just outside it, or in the middle of its gap; at times
    /// the largest word, which lies inside.
    fn edge(&mut self) {
        let (_, stretch) = self.crossing();
        let (width, last) = (self.width, stretch.last(self.width));
        let middle = width.add(last, stretch.gap(width) / 2);
        let (before, behind) = (width.sub(stretch.from, 1), width.add(last, 1));
        let places = [stretch.from, before, last, behind, middle, width.largest()];
        let k = self.random.pick(&places);
        self.word(Row::Const { k }, Stretch { from: k, more: 0 });
    }

    fn store(&mut self, index: Ref) {
        let (value, _) = self.any();
        self.memory = self.push(Row::Write { array: self.memory, index, value });
    }
}

fn crossing_among(random: &mut Random, width: Width, words: &[(Ref, Stretch)]) -> (Ref, Stretch) {
    let some: Vec<(Ref, Stretch)> = (0..6).map(|_| random.pick(words)).collect();
    let found = some.iter().find(|(_, stretch)| stretch.crosses(width));
    let narrow = some.iter().min_by_key(|(_, stretch)| stretch.more);
    *found.or(narrow).expect("six words")
}
