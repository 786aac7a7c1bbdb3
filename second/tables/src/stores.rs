//! A stub that stores again and again: places beside a few bases, a long run of stores at them, each on
//! the one before, and reads from anywhere in the run, of places stored to and of others. No row
//! refers to a read, so that each read goes its way whatever the others find.

use crate::random::Random;
use second::{Ref, Row, Width};

pub fn rows(random: &mut Random, width: Width, count: usize) -> Vec<Row> {
    let mut rows = vec![Row::Fresh];
    let mut places = Vec::new();
    let bases = random.from_to(1, 3);
    for base in 0..bases {
        rows.push(base_row(random, width, base));
        places.push(rows.len() - 1);
        for _ in 0..random.from_to(1, 4) {
            let a = random.pick(&places);
            rows.push(Row::Shift { a, k: random.from_to(0, 9) & width.largest() });
            places.push(rows.len() - 1);
        }
    }
    rows.truncate(count);
    places.retain(|place| *place < count);
    if places.is_empty() {
        return rows;
    }
    let one_read_in = random.pick(&[2, 3, 6, 30]);
    let mut stores = vec![0];
    while rows.len() < count {
        let index = random.pick(&places);
        if random.one_in(one_read_in) {
            rows.push(Row::Read { array: late(random, &stores), index });
        } else {
            let array = if random.one_in(30) { late(random, &stores) } else { last(&stores) };
            rows.push(Row::Write { array, index, value: random.pick(&places) });
            stores.push(rows.len() - 1);
        }
    }
    rows
}

/// A constant or a variable; variables of one width share no word, or seldom.
fn base_row(random: &mut Random, width: Width, base: u64) -> Row {
    let most = width.largest() / 4;
    let low = base * (most + 1) & width.largest();
    match random.below(8) {
        0 => Row::Const { k: random.word(width) },
        1 => Row::Var { name: 0, low: 0, high: width.largest() },
        _ => Row::Var { name: 0, low, high: low + random.from_to(0, most / 2) },
    }
}

fn last(stores: &[Ref]) -> Ref {
    stores[stores.len() - 1]
}

/// Most often the last store, or one of those just before.
fn late(random: &mut Random, stores: &[Ref]) -> Ref {
    match random.below(3) {
        0 => last(stores),
        1 => stores[stores.len() - 1 - random.below(stores.len().min(4))],
        _ => random.pick(stores),
    }
}

/// How the places of stores and reads are told apart.
#[derive(Clone, Copy, PartialEq, Eq, Debug)]
pub enum Told {
    ByBase,
    ByRanges,
}

/// The row of `passed` that is the index of its reads.
pub const INDEX_OF_READS: Ref = 3;

/// An array, three places, stores at two of them in turn, so that no store is skipped, and reads of the
/// third, each of which is compared with every store and passes it. There are no rows but the array
/// and the places beside stores and reads, which is the least with which reads pass two stores.
pub fn passed(width: Width, told: Told, stores: usize, reads: usize) -> Vec<Row> {
    let mut rows = vec![Row::Fresh];
    let step = width.largest() / 4;
    rows.extend((0..3).map(|place| match told {
        Told::ByBase if place == 0 => Row::Var { name: 0, low: 0, high: width.largest() },
        Told::ByBase => Row::Shift { a: 1, k: place },
        Told::ByRanges => Row::Var { name: 0, low: place * step, high: place * step + step - 1 },
    }));
    let mut array = 0;
    for store in 0..stores {
        rows.push(Row::Write { array, index: 1 + store % 2, value: 1 });
        array = rows.len() - 1;
    }
    rows.extend((0..reads).map(|_| Row::Read { array, index: INDEX_OF_READS }));
    rows
}
