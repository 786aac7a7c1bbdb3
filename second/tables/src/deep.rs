//! Word rows that lean on one another all the way up, as no run leaves them: SHIFT on SHIFT, and sums
//! of sums, which double the ways down at each step. They are for kept results.

use crate::names::Bounds;
use crate::random::Random;
use second::{Ref, Row, Sort, Width};

#[derive(Clone, Copy)]
pub struct Habits {
    /// How many word rows down the row lies that a row leans on: so many towers stand side by side.
    pub stride: usize,
    /// At times variables stand at the bottom; without them each row has one value.
    pub variables: bool,
}

#[derive(Clone, Copy)]
enum Step {
    Shift,
    Sum,
    Diff,
    Neg,
}

const STEPS: [Step; 4] = [Step::Shift, Step::Sum, Step::Diff, Step::Neg];

struct Deep<'r> {
    random: &'r mut Random,
    width: Width,
    habits: Habits,
    /// The step that most rows take, or none.
    most: Option<Step>,
    bounds: Bounds,
    /// Each word row, and whether it has one value.
    words: Vec<(Ref, bool)>,
    arrays: Vec<Ref>,
}

/// Rows of these sorts.
pub fn rows(random: &mut Random, width: Width, sorts: &[Sort], habits: Habits) -> Vec<Row> {
    let one_step = random.pick(&STEPS);
    let most = (!random.one_in(5)).then_some(one_step);
    let (bounds, words, arrays) = (Bounds::default(), Vec::new(), Vec::new());
    let mut deep = Deep { random, width, habits, most, bounds, words, arrays };
    sorts.iter().enumerate().map(|(number, sort)| deep.row(number, *sort)).collect()
}

impl Deep<'_> {
    fn row(&mut self, number: Ref, sort: Sort) -> Row {
        if sort == Sort::Array {
            let row = self.array();
            self.arrays.push(number);
            return row;
        }
        let (row, fixed) = match self.words.len().checked_sub(self.habits.stride) {
            Some(below) => self.leaning(self.words[below]),
            None => self.bottom(),
        };
        self.words.push((number, fixed));
        row
    }

    fn array(&mut self) -> Row {
        if self.arrays.is_empty() || self.words.is_empty() || self.random.one_in(4) {
            return Row::Fresh;
        }
        let [(index, _), (value, _)] = [(); 2].map(|_| self.random.pick(&self.words));
        Row::Write { array: self.random.pick(&self.arrays), index, value }
    }

    /// A constant or a narrow variable; some variables have one name.
    fn bottom(&mut self) -> (Row, bool) {
        let low = self.random.word(self.width);
        if !self.habits.variables || self.random.one_in(3) {
            return (Row::Const { k: low }, true);
        }
        let most = (self.width.largest() - low).min(self.random.pick(&[1, 9, 1 << 20]));
        let high = low + self.random.from_to(0, most);
        let row = self.bounds.variable(self.random.pick(&[0, 5, 261]), [low, high]);
        self.bounds.add(row);
        (row, false)
    }

    /// A row on row `a`. Two variables are seldom added, or soon every word would be in range.
    fn leaning(&mut self, (a, fixed): (Ref, bool)) -> (Row, bool) {
        let step = match self.most {
            Some(step) if !self.random.one_in(4) => step,
            _ => self.random.pick(&STEPS),
        };
        let k = self.random.word(self.width);
        let (b, other_fixed) = self.beside((a, fixed));
        match step {
            Step::Shift => (Row::Shift { a, k }, fixed),
            Step::Neg => (Row::Neg { a, k }, fixed),
            Step::Sum => (Row::Sum { a, b, k }, fixed && other_fixed),
            Step::Diff if self.random.one_in(2) => {
                (Row::Diff { a: b, b: a, k }, fixed && other_fixed)
            }
            Step::Diff => (Row::Diff { a, b, k }, fixed && other_fixed),
        }
    }

    /// The other operand: the row itself again, or one of the latest; of one value where `a` is not.
    fn beside(&mut self, (a, fixed): (Ref, bool)) -> (Ref, bool) {
        if fixed && self.random.one_in(2) {
            return (a, true);
        }
        let latest = self.words.len().min(self.habits.stride + 2);
        let near = self.words[self.words.len() - 1 - self.random.below(latest)];
        if fixed || near.1 || self.random.one_in(60) {
            return near;
        }
        let of_one_value = self.words.iter().rev().find(|(_, fixed)| *fixed);
        of_one_value.copied().unwrap_or(near)
    }
}
