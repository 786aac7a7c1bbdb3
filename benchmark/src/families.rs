//! The tables that are measured.

use second::bytes::{row_bytes, table_bytes, ROW};
use second::{Answer, Reason, Row, Sort, Width, HIGHEST_LIMIT};
use tables::machine::Stack;
use tables::random::Random;
use tables::sources::sources;
use tables::stores::{self, Told};
use tables::{chain, machine, wellformed};

pub const SIZES: [usize; 4] = [16, 64, 256, 1024];

/// How many names the thousand variables of a table have: none; few; as many as there are slots for
/// the library's first look; so many that it must search for most.
pub const NAMES: [usize; 4] = [0, 16, 256, 1000];

/// Tables of 1,024 rows whose reads pass all their stores: how the two are told apart, how many stores
/// and how many reads. A thousand stores leave room for 20 reads, and no table has more comparisons
/// than 510 of each.
pub type Stores = (Told, usize, usize);
pub const STORES: [Stores; 4] = [
    (Told::ByBase, 1000, 20),
    (Told::ByRanges, 1000, 20),
    (Told::ByBase, 510, 510),
    (Told::ByRanges, 510, 510),
];

#[derive(Clone, Copy)]
pub enum Family {
    Stack,
    StackAndHeap,
    StackAcrossZero,
    Chain,
    Sums,
}

impl Family {
    pub const ALL: [Family; 5] =
        [Family::Stack, Family::StackAndHeap, Family::StackAcrossZero, Family::Chain, Family::Sums];

    pub fn name(self) -> &'static str {
        match self {
            Family::Stack => "stack: calls, returns, locals",
            Family::StackAndHeap => "stack and heap, some pointers read from memory",
            Family::StackAcrossZero => "stack across zero, and heap in the gap of its range",
            Family::Chain => "one long chain of stores at one base, reads past them",
            Family::Sums => "sums, differences and negations, each of the rows before it",
        }
    }

    pub fn rows(self, width: Width, count: usize) -> Vec<Row> {
        let mut random = Random::new(7);
        let mut machine = |stack, heap, pointers_one_in| {
            let habits = machine::Habits {
                heap,
                pointers_one_in,
                re_entries_one_in: 0,
                names: [0, 0],
                stack,
            };
            machine::rows(&mut random, width, count, habits)
        };
        match self {
            Family::Stack => machine(Stack::High, false, 0),
            Family::StackAndHeap => machine(Stack::High, true, 40),
            Family::StackAcrossZero => machine(Stack::AtZero, true, 0),
            Family::Chain => chain::rows(width, count),
            Family::Sums => sums(width, count),
        }
    }
}

/// A variable, a read, and then rows of the two before them. The result has all of them as they are,
/// so that the ranges of the last two are made from those of every word above.
fn sums(width: Width, count: usize) -> Vec<Row> {
    let variable = Row::Var { name: 0, low: 0, high: width.largest() / 2 };
    let mut rows = vec![variable, Row::Fresh, Row::Read { array: 1, index: 0 }];
    rows.push(Row::Sum { a: 0, b: 2, k: 0 });
    while rows.len() < count {
        let (number, k) = (rows.len(), rows.len() as u64);
        rows.push(match number % 3 {
            0 => Row::Sum { a: number - 2, b: number - 1, k },
            1 => Row::Neg { a: number - 1, k },
            _ => Row::Diff { a: number - 1, b: number - 2, k },
        });
    }
    rows
}

/// A table, its result, and the calls to measure on it.
pub struct Subject {
    pub rows: Vec<Row>,
    sources: Vec<u32>,
    pub table: Vec<u8>,
    pub result: Vec<u8>,
}

/// A question to repeat, about two word rows.
pub struct Question {
    pub name: &'static str,
    pub rows: [u64; 2],
}

/// An edit to repeat: two replacements in turn, so that each call changes something.
pub struct Edit {
    pub name: &'static str,
    pub row: u64,
    pub replacements: [[u8; ROW]; 2],
}

impl Subject {
    pub fn new(family: Family, size: usize) -> Subject {
        let width = Width::new(32).expect("a width");
        Subject::of(width, family.rows(width, size))
    }

    /// Rows of every kind without a story.
    pub fn mixed(seed: u64) -> Subject {
        let width = Width::new(64).expect("a width");
        Subject::of(width, wellformed::rows(&mut Random::new(seed), width, 1024))
    }

    /// A thousand variables that have this many names in turn, or none, then sums and differences of
    /// them, a store and a read.
    pub fn named(names: usize) -> Subject {
        let width = Width::new(32).expect("a width");
        let name = |row: usize| if names == 0 { 0 } else { (1 + row % names) as u16 };
        let mut rows: Vec<Row> =
            (0..1000).map(|row| Row::Var { name: name(row), low: 1, high: 1 << 20 }).collect();
        rows.extend((0..11).flat_map(|row| {
            let (a, b, k) = (row, 999 - 31 * row, 4);
            [Row::Sum { a, b, k }, Row::Diff { a: b, b: a, k }]
        }));
        let array = rows.len();
        rows.extend([Row::Fresh, Row::Read { array, index: 999 }]);
        Subject::of(width, rows)
    }

    pub fn passed((told, stores, reads): Stores) -> Subject {
        let width = Width::new(32).expect("a width");
        Subject::of(width, stores::passed(width, told, stores, reads))
    }

    fn of(width: Width, rows: Vec<Row>) -> Subject {
        let sources = sources(&mut Random::new(rows.len() as u64), rows.len());
        let table = table_bytes(width, &rows, &sources);
        let mut result = vec![0; table.len()];
        assert_eq!(second::run(&table, &mut result, HIGHEST_LIMIT).refusal, 0);
        Subject { rows, sources, table, result }
    }

    /// What a run with a limit answers and leaves, by the second program.
    pub fn within(&self, limit: u64) -> (Answer, Vec<u8>) {
        let mut result = vec![0; self.table.len()];
        (second::run(&self.table, &mut result, limit), result)
    }

    /// How many rows are of a kind.
    pub fn count(&self, is: impl Fn(&Row) -> bool) -> usize {
        self.rows.iter().filter(|row| is(row)).count()
    }

    /// A row exchanged for another of its instruction, and put back.
    fn edit(&self, name: &'static str, row: usize, other: Row) -> Edit {
        let replacements = [other, self.rows[row]].map(|new| row_bytes(new, self.sources[row]));
        Edit { name, row: row as u64, replacements }
    }

    /// The first variable moves everything, or what has its name, a SHIFT in the middle what follows
    /// it, the last row itself.
    pub fn edits(&self) -> Vec<Edit> {
        let mut edits = Vec::new();
        let first = self.rows.iter().position(|row| matches!(row, Row::Var { .. })).unwrap_or(0);
        match self.rows[first] {
            Row::Var { name: 0, low, high } if low < high => {
                let other = Row::Var { name: 0, low: low + 1, high };
                edits.push(self.edit("edit first", first, other));
            }
            Row::Var { name: 1.., low, high } => {
                edits.push(self.edit("edit first", first, Row::Var { name: 0, low, high }));
            }
            _ => {}
        }
        let shift = |row: &usize| matches!(self.rows[*row], Row::Shift { .. });
        if let Some(row) = (self.rows.len() / 2..self.rows.len()).find(shift) {
            let Row::Shift { a, k } = self.rows[row] else { unreachable!("just found") };
            edits.push(self.edit("edit middle", row, Row::Shift { a, k: k ^ 1 }));
        }
        let last = self.rows.len() - 1;
        let other = match self.rows[last].sort() {
            Sort::Word => Row::Const { k: 1 },
            Sort::Array => Row::Fresh,
        };
        edits.push(self.edit("edit last", last, other));
        edits
    }

    /// The last two word rows; the last one and the nearest before it with which it shares a base, or
    /// itself; and the last one and the nearest with which it shares none, so that ranges are asked for.
    pub fn questions(&self) -> [Question; 3] {
        let words = (0..self.rows.len()).rev().filter(|row| self.rows[*row].sort() == Sort::Word);
        let mut words = words.map(|row| row as u64);
        let last = words.next().expect("every family has words");
        let words: Vec<u64> = words.collect();
        let shares = |row: &u64| {
            let reason = second::ask(&self.table, &self.result, *row, last).reason;
            matches!(reason, Reason::SamePlace | Reason::SharedBase { .. })
        };
        let before = words.first().copied().unwrap_or(last);
        let shared = words.iter().copied().find(shares).unwrap_or(last);
        let other = words.iter().copied().find(|row| !shares(row)).unwrap_or(last);
        [("last two", before), ("one base", shared), ("two bases", other)]
            .map(|(name, row)| Question { name, rows: [row, last] })
    }

    /// The last READ row.
    pub fn listed(&self) -> u64 {
        let read = (0..self.rows.len()).rev().find(|row| self.rows[*row].is_read());
        read.expect("every family has reads") as u64
    }
}
