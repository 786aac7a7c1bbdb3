//! Tables of every kind of row, without a story: each row is any that may stand there.

use crate::names::{self, Bounds};
use crate::random::Random;
use second::{Ref, Row, Sort, Width};

/// What a row finds in its place: the rows that it may refer to, and bounds that it must share.
#[derive(Default)]
pub struct Place {
    words: Vec<Ref>,
    arrays: Vec<Ref>,
    pub bounds: Bounds,
}

impl Place {
    /// The place of row `number` among `rows`.
    pub fn of(number: Ref, rows: &[Row]) -> Place {
        let mut place = Place::default();
        for row in &rows[..number] {
            place.pass(*row);
        }
        for row in rows.iter().skip(number + 1) {
            place.bounds.add(*row);
        }
        place
    }

    /// Goes on to the place behind a row.
    fn pass(&mut self, row: Row) {
        let number = self.words.len() + self.arrays.len();
        match row.sort() {
            Sort::Word => self.words.push(number),
            Sort::Array => self.arrays.push(number),
        }
        self.bounds.add(row);
    }
}

/// What one table has more of than another.
pub struct Taste {
    width: Width,
    weights: [usize; 7],
    /// Few offsets make many rows the same.
    offsets: Vec<u64>,
    narrow: bool,
    names: Vec<u16>,
}

impl Taste {
    pub fn new(random: &mut Random, width: Width) -> Taste {
        let weights = std::array::from_fn(|_| random.pick(&[1, 1, 2, 4, 8]));
        let count = random.pick(&[1, 2, 4, 16]);
        let offsets = (0..count).map(|_| random.word(width)).collect();
        Taste { width, weights, offsets, narrow: random.one_in(2), names: names::few(random) }
    }

    pub fn with_names(self, names: Vec<u16>) -> Taste {
        Taste { names, ..self }
    }

    /// With a variable in every other word row.
    pub fn with_variables(mut self) -> Taste {
        self.weights[1] = self.weights.iter().sum();
        self
    }

    fn offset(&self, random: &mut Random) -> u64 {
        match random.below(6) {
            0 => random.word(self.width),
            1 => 0,
            _ => random.pick(&self.offsets),
        }
    }

    pub fn variable(&self, random: &mut Random, place: &Place) -> Row {
        let name = random.pick(&self.names);
        let bounds = self.bounds(random);
        place.bounds.variable(name, bounds)
    }

    pub fn bounds(&self, random: &mut Random) -> [u64; 2] {
        let largest = self.width.largest();
        let low = random.word(self.width);
        let room = largest - low;
        let size = if self.narrow { largest / 8 } else { largest };
        let high = match random.below(8) {
            0 => low,
            1 => largest,
            _ => low + random.from_to(0, room.min(size)),
        };
        match random.below(8) {
            0 => [0, largest],
            1 => [0, high],
            _ => [low, high],
        }
    }

    fn word(&self, random: &mut Random, place: &Place) -> Row {
        let total: usize = self.weights.iter().sum();
        let mut left = random.below(total);
        let mut kind = 0;
        while left >= self.weights[kind] {
            left -= self.weights[kind];
            kind += 1;
        }
        if kind == 0 || place.words.is_empty() && random.one_in(2) {
            return Row::Const { k: self.offset(random) };
        }
        if kind == 1 || place.words.is_empty() || kind == 6 && place.arrays.is_empty() {
            return self.variable(random, place);
        }
        let (a, b) = (near(random, &place.words), near(random, &place.words));
        let k = self.offset(random);
        match kind {
            2 => Row::Shift { a, k },
            3 => Row::Sum { a, b, k },
            4 => Row::Diff { a, b, k },
            5 => Row::Neg { a, k },
            _ => Row::Read { array: near(random, &place.arrays), index: b },
        }
    }

    fn array(&self, random: &mut Random, place: &Place) -> Row {
        if place.arrays.is_empty() || place.words.is_empty() || random.one_in(12) {
            return Row::Fresh;
        }
        Row::Write {
            array: near(random, &place.arrays),
            index: near(random, &place.words),
            value: near(random, &place.words),
        }
    }

    pub fn row(&self, random: &mut Random, sort: Sort, place: &Place) -> Row {
        match sort {
            Sort::Word => self.word(random, place),
            Sort::Array => self.array(random, place),
        }
    }
}

/// Mostly the latest rows, so that terms grow deep; often the first, so that bases meet.
fn near(random: &mut Random, from: &[Ref]) -> Ref {
    let count = from.len();
    match random.below(4) {
        0 | 1 => from[count - 1 - random.below(count.min(4))],
        2 => from[random.below(count.min(3))],
        _ => from[random.below(count)],
    }
}

pub fn rows(random: &mut Random, width: Width, count: usize) -> Vec<Row> {
    let taste = Taste::new(random, width);
    rows_of(random, &taste, count)
}

pub fn rows_of(random: &mut Random, taste: &Taste, count: usize) -> Vec<Row> {
    let one_array_in = random.pick(&[2, 3, 5, 12]);
    let sorts: Vec<Sort> = (0..count)
        .map(|_| if random.one_in(one_array_in) { Sort::Array } else { Sort::Word })
        .collect();
    rows_of_sorts(random, taste, &sorts)
}

pub fn rows_of_sorts(random: &mut Random, taste: &Taste, sorts: &[Sort]) -> Vec<Row> {
    let mut place = Place::default();
    sorts
        .iter()
        .map(|sort| {
            let row = taste.row(random, *sort, &place);
            place.pass(row);
            row
        })
        .collect()
}
