//! The library and the second program side by side: each call is made on both, and every
//! number and every byte must agree.

use crate::lent::Lent;
use crate::lines::List;
use crate::reasons::Given;
use crate::tally::{Call, Seen, Tally};
use second::bytes::{sources, HEADER, KIND, ROW};
use second::{Answer, Comparison, Listing};
use stezkoun::numbers;
use tables::random::Random;

pub struct Pair {
    pub tally: Tally,
    pub cases: u64,
    pub differences: u64,
    pub seed: u64,
    /// Which group of cases is under way, for the description of a difference.
    pub group: String,
    alignment: Random,
}

/// Refusal, row, removed, touched, compared, and a call's own: a relation, a length or 0.
type Numbers = [u64; 6];

pub fn hex(bytes: &[u8]) -> String {
    bytes.iter().map(|byte| format!("{byte:02x}")).collect()
}

fn library_numbers(answer: numbers::Answer, own: u64) -> Numbers {
    let numbers::Answer { refusal, row, removed, touched, compared } = answer;
    [refusal, row, removed, touched, compared, own]
}

fn second_numbers(answer: Answer, own: u64) -> Numbers {
    let Answer { refusal, row, removed, touched, compared } = answer;
    [refusal, row, removed, touched, compared, own]
}

impl Pair {
    pub fn new(seed: u64) -> Pair {
        let (tally, group, alignment) = (Tally::default(), String::new(), Random::new(seed));
        Pair { tally, cases: 0, differences: 0, seed, group, alignment }
    }

    /// Counts a difference where `holds` is false, and describes the first.
    pub fn expect(&mut self, holds: bool, describe: impl FnOnce() -> String) {
        self.differences += !holds as u64;
        if !holds && self.differences == 1 {
            println!("DIFFERENCE at seed {}, {}, case {}", self.seed, self.group, self.cases);
            println!("{}", describe());
        }
    }

    pub fn run(&mut self, table: &[u8], result: &mut [u8], limit: u64) -> Answer {
        let [mut lent, mut room] = [table, &*result].map(|bytes| self.lent(bytes));
        let given = numbers::run(lent.content(), room.content(), limit);
        let mut seen = Seen::default();
        let answer = second::run_watched(table, result, limit, &mut seen);
        self.tally.add(Call::Run, answer, &seen);
        self.tally.add_limit(Call::Run, limit);
        if answer.refusal == 0 {
            // A READ is known by its kind byte.
            let reads = table[HEADER..].chunks(ROW).filter(|row| row[KIND] == 7).count() as u64;
            let most = limit * reads;
            self.expect(given.compared <= most && answer.compared <= most, || {
                format!("{given:?} and {answer:?}, limit {limit}, for {}", hex(table))
            });
        }
        let (given, expected) = (library_numbers(given, 0), second_numbers(answer, 0));
        let buffers = [("table", lent, table), ("result", room, result)];
        self.agree(&format!("run, limit {limit}"), given, expected, buffers);
        answer
    }

    pub fn edit(
        &mut self, table: &mut [u8], kept: &mut [u8], row: u64, replacement: &[u8], limit: u64,
    ) -> Answer {
        let [mut lent, mut room, mut new] =
            [&*table, kept, replacement].map(|bytes| self.lent(bytes));
        let given = numbers::edit(lent.content(), room.content(), row, new.content(), limit);
        let mut seen = Seen::default();
        let answer = second::edit_watched(table, kept, row, replacement, limit, &mut seen);
        self.tally.add(Call::Edit, answer, &seen);
        self.tally.add_limit(Call::Edit, limit);
        let (given, expected) = (library_numbers(given, 0), second_numbers(answer, 0));
        let buffers =
            [("table", lent, &*table), ("kept", room, kept), ("replacement", new, replacement)];
        self.agree(&format!("edit row {row}, limit {limit}"), given, expected, buffers);
        answer
    }

    /// Both buffers are only read: the second program is given them so, and of the library's each byte
    /// is looked at afterwards.
    pub fn ask(&mut self, table: &[u8], kept: &[u8], numbers: [u64; 2]) -> Comparison {
        let [first, second] = numbers;
        let [mut lent, mut room] = [table, kept].map(|bytes| self.lent(bytes));
        let given = numbers::ask(lent.content(), room.content(), first, second);
        let mut seen = Seen::default();
        let comparison = second::ask_watched(table, kept, first, second, &mut seen);
        self.tally.add(Call::Ask, comparison.answer, &seen);
        if comparison.answer.refusal == 0 {
            self.reason(table, comparison);
        }
        let given = library_numbers(given.answer, given.relation);
        let expected = second_numbers(comparison.answer, comparison.relation() as u64);
        let buffers = [("table", lent, table), ("kept", room, kept)];
        self.agree(&format!("ask rows {first} and {second}"), given, expected, buffers);
        comparison
    }

    /// Holds the second program's reason to its stated words, and counts it.
    fn reason(&mut self, table: &[u8], comparison: Comparison) {
        let words = comparison.reason.to_string();
        let given = Given::read(&words);
        self.expect(given.is_some(), || format!("the reason \"{words}\""));
        if let Some(given) = given {
            let width = table[2];
            self.tally.add_question(width, comparison.relation(), &given);
        }
    }

    pub fn why(&mut self, table: &[u8], result: &mut [u8], row: u64, list: &mut [u8]) -> Listing {
        let [mut lent, mut room, mut space] =
            [table, &*result, &*list].map(|bytes| self.lent(bytes));
        let given = numbers::why(lent.content(), room.content(), row, space.content());
        let mut seen = Seen::default();
        let listing = second::why_watched(table, result, row, list, &mut seen);
        self.tally.add(Call::Why, listing.answer, &seen);
        if listing.answer.refusal == 0 {
            self.list(table, row, &space.before, list, listing.length as usize);
        }
        let given = library_numbers(given.answer, given.length);
        let expected = second_numbers(listing.answer, listing.length);
        let buffers = [("table", lent, table), ("result", room, &*result), ("list", space, list)];
        self.agree(&format!("why row {row}"), given, expected, buffers);
        listing
    }

    /// Holds the second program's list, and so both, to its stated lines and length and to the
    /// instruction numbers of the table, and counts it.
    fn list(&mut self, table: &[u8], row: u64, before: &[u8], after: &[u8], length: usize) {
        let list = List::of(&after[..length])
            .filter(|list| length <= list.most_bytes() && list.has_sources(&sources(table)));
        let right = list.is_some() && after[length..] == before[length..];
        self.expect(right, || format!("a wrong list for row {row} of {}", hex(table)));
        if let Some(list) = list {
            let width = table[2];
            self.tally.add_list(width, &list);
        }
    }

    fn lent(&mut self, content: &[u8]) -> Lent {
        Lent::new(&mut self.alignment, content)
    }

    /// Holds the library's numbers and lent buffers to the second program's, and counts the case.
    fn agree<const N: usize>(
        &mut self, call: &str, given: Numbers, expected: Numbers,
        mut buffers: [(&str, Lent, &[u8]); N],
    ) {
        self.cases += 1;
        let mut wrong = None;
        if given != expected {
            wrong =
                Some("refusal, row, removed, touched, compared, relation or length".to_string());
        }
        for (name, lent, after) in &mut buffers {
            if !lent.guards_stand() {
                wrong = Some(format!("the bytes around the {name}"));
            }
            if lent.content() != *after {
                let at = lent.content().iter().zip(*after).position(|(x, y)| x != y).unwrap();
                let (ours, theirs) = (hex(&lent.content()[at..]), hex(&after[at..]));
                wrong = Some(format!("{name} from byte {at}: library {ours}, second {theirs}"));
            }
            if expected[0] != 0 && lent.before != *after {
                wrong = Some(format!("the second program changed the {name} though it refused"));
            }
        }
        let Some(wrong) = wrong else { return };
        self.expect(false, || {
            let lent: Vec<String> = buffers
                .iter()
                .map(|(name, lent, _)| format!("{name} {}", hex(&lent.before)))
                .collect();
            let lent = lent.join("\n");
            format!("{call}: {wrong}\nlibrary {given:?}, second {expected:?}; lent were\n{lent}")
        });
    }
}
