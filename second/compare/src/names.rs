//! Names of variables: tables with many, and edits aimed at them.

use crate::aims::{Aim, Change, Chooser, AIMS};
use crate::damage::result_slice;
use crate::edited::Edited;
use crate::groups::{keeps_meaning, MOST_ROWS_EVALUATED};
use crate::limits;
use crate::meaning::decoded;
use crate::pair::{hex, Pair};
use crate::paper::refused;
use second::bytes::{place, row_bytes, Fields, ROW};
use second::{Row, Sort};
use tables::names;
use tables::random::Random;
use tables::sources::numbered;
use tables::wellformed::{rows_of, rows_of_sorts, Taste};

/// Most tables are small; at times one is large and has more names than 256.
pub fn cases(pair: &mut Pair, random: &mut Random, number: u64) {
    let large = number % 100 == 7;
    let width = random.width();
    let names = if large { names::many(random) } else { names::few(random) };
    let taste = Taste::new(random, width).with_names(names).with_variables();
    let count = if large { random.from_to(300, 1024) } else { random.from_to(2, 24) };
    let rows = rows_of(random, &taste, count as usize);
    let table = numbered(random, width, &rows);

    let limit = limits::some(random, rows.len());
    pair.run(&table, &mut result_slice(random, &table), limit);
    let mut result = vec![0; table.len()];
    second::run(&table, &mut result, limit);
    if rows.len() <= MOST_ROWS_EVALUATED {
        keeps_meaning(pair, random, &table, &result);
    }
    let chooser = Chooser::new(&rows, &taste);
    for (aim, _) in AIMS {
        let own = random.one_in(2);
        let kept = if own { result.clone() } else { foreign(random, &table, &taste) };
        if let Some(change) = chooser.change(random, aim).filter(|_| random.one_in(3)) {
            Aimed { aim, change, table: &table, own, kept, limit }.edit(pair, random);
        }
    }
    if let Some(change) = chooser.change(random, Aim::FirstOfOtherBounds) {
        kept_of_other_bounds(pair, random, change, &table);
    }
}

/// A kept result that is refused as a table with 18, by a change of its rows.
fn kept_of_other_bounds(pair: &mut Pair, random: &mut Random, change: Change, table: &[u8]) {
    let mut kept = table.to_vec();
    kept[place(change.row)].copy_from_slice(&row_bytes(change.new, random.source()));
    let rows = decoded(table).1.len();
    let (row, limit) = (random.below(rows), limits::some(random, rows));
    let answers = [
        pair.ask(table, &kept, [row as u64; 2]).answer,
        pair.edit(&mut table.to_vec(), &mut kept, row as u64, &table[place(row)], limit),
    ];
    pair.expect(answers == [refused(16, 0); 2], || {
        format!("{answers:?} for kept {} of {}", hex(&kept), hex(table))
    });
}

/// A kept result that is not the table's own: other rows of its sorts, or its rows as they are, with
/// their names.
fn foreign(random: &mut Random, table: &[u8], taste: &Taste) -> Vec<u8> {
    let (width, mut rows) = decoded(table);
    if !random.one_in(3) {
        let sorts: Vec<Sort> = rows.iter().map(|row| row.sort()).collect();
        rows = rows_of_sorts(random, taste, &sorts);
    }
    numbered(random, width, &rows)
}

/// A change of a table that has a kept result, its own of this limit or another.
struct Aimed<'a> {
    aim: Aim,
    change: Change,
    table: &'a [u8],
    own: bool,
    kept: Vec<u8>,
    limit: u64,
}

impl Aimed<'_> {
    fn edit(self, pair: &mut Pair, random: &mut Random) {
        let (Change { row, new, old }, limit) = (self.change, self.limit);
        let (mut table, mut kept) = (self.table.to_vec(), self.kept.clone());
        let (_, mut rows_before) = decoded(&table);
        if let Some(old) = old {
            table[place(row)].copy_from_slice(&old);
            rows_before[row] = as_far_as_names(&old);
        }
        let new = row_bytes(new, random.source());
        let answer = pair.edit(&mut table, &mut kept, row as u64, &new, limit);
        pair.tally.add_aim(self.aim);

        if self.aim == Aim::FirstOfOtherBounds {
            let mut later = (row + 1..).zip(&rows_before[row + 1..]);
            let named = later.find(|(_, later)| later.name() == rows_before[row].name());
            let blamed = named.map(|(number, _)| refused(18, number as u64));
            pair.expect(Some(answer) == blamed, || {
                format!("{answer:?} for {} in row {row} of {}", hex(&new), hex(&table))
            });
            return;
        }
        pair.expect(answer.refusal == 0, || {
            format!("{answer:?} for {} in row {row} of {}", hex(&new), hex(&table))
        });
        if answer.refusal != 0 {
            return;
        }
        let edited = Edited {
            row,
            rows_before: &rows_before,
            table: &table,
            kept_before: &self.kept,
            kept: &kept,
            limit,
            answer,
        };
        edited.leaves_others(pair);
        edited.makes_later_ones_the_first(pair);
        // Over noise the kept result is not the table's own, which has none.
        if self.own && !matches!(self.aim, Aim::OldRowOfNoise | Aim::OldRowNoVar) {
            edited.is_a_fresh_run(pair);
        }
    }
}

/// A row of any bytes: a VAR by its kind byte, or else one without a name.
fn as_far_as_names(bytes: &[u8; ROW]) -> Row {
    match Fields::of(bytes) {
        Fields { kind: 2, references: [name, ..], .. } => Row::Var { name, low: 0, high: 0 },
        _ => Row::Fresh,
    }
}
