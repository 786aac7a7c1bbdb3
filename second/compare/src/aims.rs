//! Edits that make, move and end names of variables on purpose.

use second::bytes::{row_bytes, KIND, REFERENCES, ROW, VALUES, ZERO};
use second::{Ref, Row, Sort};
use tables::random::Random;
use tables::wellformed::{Place, Taste};

/// What an edit does to a name. The *first* has others of its name behind it.
#[derive(Clone, Copy, PartialEq, Eq)]
pub enum Aim {
    FirstRenamed,
    FirstOfOtherKind,
    FirstOfOtherBounds,
    FirstAgain,
    OnlyOneOfOtherBounds,
    NewFirstAbove,
    LaterRenamed,
    LaterOfOtherKind,
    BecomesLater,
    OldRowFaulty,
    OldRowOfNoise,
    OldRowNoVar,
}

pub const AIMS: [(Aim, &str); 12] = [
    (Aim::FirstRenamed, "the first gets another name, or none"),
    (Aim::FirstOfOtherKind, "the first gets another kind"),
    (Aim::FirstOfOtherBounds, "the first gets bounds of its own, refused"),
    (Aim::FirstAgain, "the first is replaced by itself"),
    (Aim::OnlyOneOfOtherBounds, "the only one of its name gets other bounds"),
    (Aim::NewFirstAbove, "a row above the first gets its name"),
    (Aim::LaterRenamed, "a later one gets another name, or none"),
    (Aim::LaterOfOtherKind, "a later one gets another kind"),
    (Aim::BecomesLater, "a row below the first gets its name"),
    (Aim::OldRowFaulty, "a faulty first is replaced"),
    (Aim::OldRowOfNoise, "noise with VAR's kind byte and a name is replaced"),
    (Aim::OldRowNoVar, "noise with another kind byte is replaced"),
];

/// The rows of a table by their part in names.
#[derive(Default)]
struct Parts {
    firsts: Vec<Ref>,
    onlys: Vec<Ref>,
    laters: Vec<Ref>,
}

impl Parts {
    fn of(rows: &[Row]) -> Parts {
        let mut parts = Parts::default();
        for (number, row) in rows.iter().enumerate() {
            let Some(name) = row.name() else { continue };
            let has_it = |row: &Row| row.name() == Some(name);
            if rows[..number].iter().any(has_it) {
                parts.laters.push(number);
            } else if rows[number + 1..].iter().any(has_it) {
                parts.firsts.push(number);
            } else {
                parts.onlys.push(number);
            }
        }
        parts
    }
}

/// A row to be replaced, the new one, and the bytes that stand there before, if not the table's.
pub struct Change {
    pub row: Ref,
    pub new: Row,
    pub old: Option<[u8; ROW]>,
}

/// Chooses changes of one table.
pub struct Chooser<'c> {
    rows: &'c [Row],
    parts: Parts,
    taste: &'c Taste,
}

impl Chooser<'_> {
    pub fn new<'c>(rows: &'c [Row], taste: &'c Taste) -> Chooser<'c> {
        Chooser { rows, parts: Parts::of(rows), taste }
    }

    /// None where the table has no such rows.
    pub fn change(&self, random: &mut Random, aim: Aim) -> Option<Change> {
        let Parts { firsts, onlys, laters } = &self.parts;
        let among = match aim {
            Aim::OnlyOneOfOtherBounds => onlys,
            Aim::LaterRenamed | Aim::LaterOfOtherKind => laters,
            _ => firsts,
        };
        if among.is_empty() {
            return None;
        }
        let named = random.pick(among);
        let name = self.rows[named].name()?;
        let row = self.row_for(random, aim, named)?;
        let new = match aim {
            Aim::FirstRenamed | Aim::LaterRenamed => self.variable_of_other_name(random, row),
            Aim::FirstOfOtherBounds | Aim::OnlyOneOfOtherBounds => {
                self.of_other_bounds(random, row)?
            }
            Aim::FirstAgain | Aim::NewFirstAbove | Aim::BecomesLater => self.rows[named],
            _ => self.of_other_kind(random, row),
        };
        let old = match aim {
            Aim::OldRowFaulty => Some(self.faulty(random, row)),
            Aim::OldRowOfNoise => Some(noise(random, 2, name)),
            Aim::OldRowNoVar => {
                let kind = random.pick(&[0, 1, 3, 4, 5, 6, 7, 8, 9, 10, 130, 255]);
                Some(noise(random, kind, name))
            }
            _ => None,
        };
        Some(Change { row, new, old })
    }

    /// The row to replace: the one with the name, or a word row above or below it.
    fn row_for(&self, random: &mut Random, aim: Aim, named: Ref) -> Option<Ref> {
        let others: Vec<Ref> = match aim {
            Aim::NewFirstAbove => (0..named).collect(),
            Aim::OldRowOfNoise | Aim::OldRowNoVar => (0..=named).collect(),
            Aim::BecomesLater => (named + 1..self.rows.len()).collect(),
            _ => vec![named],
        };
        let words: Vec<Ref> =
            others.into_iter().filter(|row| self.rows[*row].sort() == Sort::Word).collect();
        (!words.is_empty()).then(|| random.pick(&words))
    }

    fn variable_of_other_name(&self, random: &mut Random, row: Ref) -> Row {
        let place = Place::of(row, self.rows);
        let variable = self.taste.variable(random, &place);
        if variable.name() == self.rows[row].name() || random.one_in(4) {
            let name = random.pick(&[0, 17, 65_535]);
            let bounds = self.taste.bounds(random);
            return place.bounds.variable(name, bounds);
        }
        variable
    }

    fn of_other_bounds(&self, random: &mut Random, row: Ref) -> Option<Row> {
        let Row::Var { name, low, high } = self.rows[row] else { return None };
        let [new_low, new_high] = self.taste.bounds(random);
        let new = match random.below(3) {
            0 if low < high => Row::Var { name, low: low + 1, high },
            1 if low < high => Row::Var { name, low, high: high - 1 },
            _ => Row::Var { name, low: new_low, high: new_high },
        };
        (new != self.rows[row]).then_some(new)
    }

    /// Any word row that is no variable.
    fn of_other_kind(&self, random: &mut Random, row: Ref) -> Row {
        match self.taste.row(random, Sort::Word, &Place::of(row, self.rows)) {
            Row::Var { low, .. } => Row::Const { k: low },
            other => other,
        }
    }

    /// The row with a fault that leaves its kind byte and name.
    fn faulty(&self, random: &mut Random, row: Ref) -> [u8; ROW] {
        let mut bytes = row_bytes(self.rows[row], random.source());
        let places = [0, 1, ZERO, REFERENCES[1], REFERENCES[2] + 1, VALUES[0] + 7, VALUES[1] + 7];
        bytes[random.pick(&places)] ^= 0x80;
        bytes
    }
}

/// Any bytes with this kind byte, and in the place of a name this one.
fn noise(random: &mut Random, kind: u8, name: u16) -> [u8; ROW] {
    let mut bytes: [u8; ROW] = random.bytes(ROW).try_into().unwrap();
    bytes[KIND] = kind;
    bytes[REFERENCES[0]..][..2].copy_from_slice(&name.to_le_bytes());
    bytes
}
