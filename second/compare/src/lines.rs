//! A list read back from its bytes: the lines that docs/WHY.md sets, and no others.

use crate::line::Line;
use crate::reasons::{Given, Reason};
use second::{Ref, Width};

#[derive(Clone, Copy)]
pub enum End {
    Found,
    OnUndecided,
    OnNoStore,
}

pub const ENDS: [&str; 3] =
    ["found element #", "stands on array #, a store undecided", "stands on array #, no store"];

/// A store compared: its row, the two indexes, and the reason.
pub struct Store {
    instruction: u64,
    pub row: Ref,
    index: Ref,
    against: Ref,
    pub given: Given,
}

impl Store {
    fn of(line: &Line) -> Option<Store> {
        let reason = line.form.strip_prefix("instruction #: store #, index # against #, ")?;
        let [instruction, row, index, against, ref says @ ..] = line.numbers[..] else {
            return None;
        };
        let [row, index, against] = [row, index, against].map(|number| number as Ref);
        Some(Store { instruction, row, index, against, given: Given::of(reason, says)? })
    }

    fn true_of(&self, width: Width, words: &[u64]) -> bool {
        self.given.true_of(width, [self.index, self.against].map(|row| words[row]))
    }
}

pub struct List {
    pub stores: Vec<Store>,
    pub end: End,
    /// The row whose list it is, and its instruction numbers: as it was read, and of its result.
    read: Ref,
    instructions: [u64; 2],
}

impl List {
    pub fn of(bytes: &[u8]) -> Option<List> {
        let text = std::str::from_utf8(bytes).ok()?.strip_suffix('\n')?;
        let lines: Vec<Line> = text.split('\n').map(Line::of).collect::<Option<_>>()?;
        let [read, stores @ .., end, result] = &lines[..] else { return None };
        if read.form != "instruction #: read #, array #, index #"
            || result.form != "result # # # # # # # #"
            || read.numbers[1] != result.numbers[0]
        {
            return None;
        }
        let instructions = [read.numbers[0], result.numbers[7]];
        let read = read.numbers[1] as Ref;
        let stores: Vec<Store> = stores.iter().map(Store::of).collect::<Option<_>>()?;
        let passed =
            |store: &Store| !matches!(store.given.reason, Reason::SamePlace | Reason::Undecided);
        let last = stores.iter().position(|store| !passed(store));
        if last.is_some_and(|last| last + 1 != stores.len()) {
            return None;
        }
        let end = match (end.form.as_str(), last.map(|last| stores[last].given.reason)) {
            ("found element #", Some(Reason::SamePlace)) => End::Found,
            ("stands on array #", Some(Reason::Undecided)) => End::OnUndecided,
            ("stands on array #", None) => End::OnNoStore,
            _ => return None,
        };
        Some(List { stores, end, read, instructions })
    }

    /// Whether each row stands beside its instruction number.
    pub fn has_sources(&self, sources: &[u32]) -> bool {
        let is = |row: Ref, number: u64| sources.get(row).is_some_and(|own| number == *own as u64);
        self.instructions.iter().all(|number| is(self.read, *number))
            && self.stores.iter().all(|store| is(store.row, store.instruction))
    }

    /// Whether all that is said of the stores is true where the rows mean `words`.
    pub fn true_of(&self, width: Width, words: &[u64]) -> bool {
        self.stores.iter().all(|store| store.true_of(width, words))
    }

    pub fn most_bytes(&self) -> usize {
        256 * self.stores.len() + 256
    }
}

/// A list without its instruction numbers.
pub fn without_sources(list: &str) -> String {
    let lines = list.lines().map(|line| match line.strip_prefix("instruction ") {
        Some(numbered) => numbered.split_once(": ").map_or(line, |(_, rest)| rest),
        None if line.starts_with("result ") => line.rsplit_once(' ').map_or(line, |(rest, _)| rest),
        None => line,
    });
    lines.map(|line| line.to_owned() + "\n").collect()
}
