//! Every two faults of a run, an edit or a question at once: the earlier one is told.

use crate::pair::{hex, Pair};
use crate::paper::{accepted, refused, table};
use crate::tally::Call::{self, Ask, Edit, Run};
use second::bytes::{place, KIND, REFERENCES, ROW, VALUES};
use second::{Answer, Relation, HIGHEST_LIMIT};

/// What a call is lent and told, with nothing wrong in it. A run takes the kept result for its
/// slice, an edit the first number.
struct Input {
    table: Vec<u8>,
    kept: Vec<u8>,
    numbers: [u64; 2],
    replacement: Vec<u8>,
    limit: u64,
}

fn rows(text: &str) -> Vec<u8> {
    table(&format!("width 8; {text}"))
}

impl Input {
    fn sound() -> Input {
        let table = rows(
            "CONST 1; FRESH; CONST 2; VAR 3 0 9; FRESH; VAR 3 0 9; VAR 5 9; READ 1 0; SHIFT 0 1; \
            SHIFT 0 1; CONST 3; CONST 4; CONST 5",
        );
        let (mut kept, replacement) = (vec![0; table.len()], table[place(0)].to_vec());
        second::run(&table, &mut kept, HIGHEST_LIMIT);
        Input { table, kept, numbers: [0, 2], replacement, limit: HIGHEST_LIMIT }
    }

    fn byte_of(&mut self, row: usize, at: usize, byte: u8) {
        self.table[place(row)][at] = byte;
    }

    fn keep(&mut self, row: usize, text: &str) {
        self.kept[place(row)].copy_from_slice(&rows(text)[place(0)]);
    }

    fn told(mut self, pair: &mut Pair, call: Call) -> Answer {
        let Input { numbers, limit, .. } = self;
        match call {
            Run => pair.run(&self.table, &mut self.kept, limit),
            Edit => {
                let (table, kept) = (&mut self.table, &mut self.kept);
                pair.edit(table, kept, numbers[0], &self.replacement, limit)
            }
            _ => {
                let comparison = pair.ask(&self.table, &self.kept, numbers);
                let answer = comparison.answer;
                let known = comparison.relation() != Relation::NotKnown;
                pair.expect(!known || answer.refusal == 0, || format!("{comparison:?}"));
                answer
            }
        }
    }
}

/// The calls that have a fault, how it is made, and the refusal and row that it has.
type Fault = (&'static [Call], fn(&mut Input), [u64; 2]);

const ALL: &[Call] = &[Run, Edit, Ask];

/// In their order. Most faults of rows are in a row of their own, those of higher numbers first.
const FAULTS: [Fault; 42] = [
    (ALL, |i| i.table.truncate(5), [1, 0]),
    (ALL, |i| i.table[1] = 0, [2, 0]),
    (ALL, |i| i.table[3] = 1, [2, 0]),
    (ALL, |i| i.table[2] = 0, [3, 0]),
    (ALL, |i| i.table[2] = 65, [3, 0]),
    (ALL, |i| i.table[5] = 5, [4, 0]),
    (ALL, |i| i.table.push(0), [5, 0]),
    (ALL, |i| i.kept.truncate(i.table.len() - 1), [6, 0]),
    (ALL, |i| i.kept.clear(), [6, 0]),
    (&[Edit, Ask], |i| i.numbers[0] = 13, [7, 0]),
    (&[Edit, Ask], |i| i.numbers[0] = 1 << 32, [7, 0]),
    (&[Ask], |i| i.numbers[1] = 14, [7, 0]),
    (&[Ask], |i| i.numbers[1] = u64::MAX, [7, 0]),
    (&[Edit], |i| i.replacement.truncate(ROW - 1), [8, 0]),
    (&[Edit], |i| i.replacement.push(0), [8, 0]),
    (&[Run, Edit], |i| i.limit = HIGHEST_LIMIT + 1, [19, 0]),
    (&[Run, Edit], |i| i.limit = 3 + (1 << 32), [19, 0]),
    (&[Run, Edit], |i| i.limit = 1 << 63, [19, 0]),
    (&[Run, Edit], |i| i.limit = u64::MAX, [19, 0]),
    (&[Edit], |i| spoil(&mut i.replacement, 0), [9, 0]),
    (&[Edit], |i| spoil(&mut i.replacement, KIND), [10, 0]),
    (&[Edit], |i| spoil(&mut i.replacement, REFERENCES[2]), [11, 0]),
    (&[Edit], |i| spoil(&mut i.replacement, VALUES[0] + 1), [12, 0]),
    (ALL, |i| i.byte_of(5, VALUES[1], 8), [18, 5]),
    (ALL, |i| i.byte_of(6, VALUES[0], 10), [15, 6]),
    (ALL, |i| i.byte_of(7, REFERENCES[0], 0), [14, 7]),
    (ALL, |i| i.byte_of(8, REFERENCES[0], 1), [14, 8]),
    (ALL, |i| i.byte_of(9, REFERENCES[0], 9), [13, 9]),
    (ALL, |i| i.byte_of(10, VALUES[0] + 1, 1), [12, 10]),
    (ALL, |i| i.byte_of(11, REFERENCES[0], 1), [11, 11]),
    (ALL, |i| i.byte_of(12, 0, 0), [9, 12]),
    (ALL, |i| i.byte_of(12, KIND, 10), [10, 12]),
    (&[Edit, Ask], |i| i.kept[0] = 0, [16, 0]),
    (&[Edit, Ask], |i| i.kept[4] = 12, [16, 0]),
    (&[Edit, Ask], |i| i.kept[2] = 9, [16, 0]),
    (&[Edit, Ask], |i| i.kept[place(10)][0] = 0, [16, 0]),
    (&[Edit, Ask], |i| i.keep(5, "VAR 3 0 8"), [16, 0]),
    (&[Edit, Ask], |i| i.keep(12, "FRESH"), [16, 0]),
    (&[Edit, Ask], |i| i.keep(4, "CONST 9"), [16, 0]),
    (&[Ask], |i| i.numbers[0] = 4, [14, 4]),
    (&[Ask], |i| i.numbers[1] = 1, [14, 1]),
    (&[Ask], |i| i.numbers[1] = 4, [14, 4]),
];

fn spoil(replacement: &mut [u8], at: usize) {
    if let Some(byte) = replacement.get_mut(at) {
        *byte = 77;
    }
}

pub fn cases(pair: &mut Pair) {
    pair.group = "two faults at once".into();
    for (call, sound) in
        [(Run, accepted(0, 13, 0)), (Edit, accepted(0, 4, 0)), (Ask, accepted(0, 0, 0))]
    {
        let given = Input::sound().told(pair, call);
        pair.expect(given == sound, || format!("{}: {given:?} for what is sound", call.name()));
        let faults: Vec<_> = FAULTS.iter().filter(|(calls, ..)| calls.contains(&call)).collect();
        for (later, (_, put_later, _)) in faults.iter().enumerate() {
            for (_, put, [number, row]) in &faults[..=later] {
                let mut input = Input::sound();
                put_later(&mut input);
                put(&mut input);
                let (table, limit) = (hex(&input.table), input.limit);
                let answer = input.told(pair, call);
                pair.expect(answer == refused(*number, *row), || {
                    let name = call.name();
                    format!("{name}: {answer:?}, not {number}, limit {limit}, for {table}")
                });
            }
        }
    }
}
