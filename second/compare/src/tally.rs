//! What the cases reached.

use crate::aims::{Aim, AIMS};
use crate::limits::{kind_of_limit, KINDS_OF_LIMIT};
use crate::lines::{List, ENDS};
use crate::reasons::{Given, REASONS};
use second::{Answer, Event, Relation, Watch};
use std::collections::BTreeMap;

/// One more than the highest refusal.
const REFUSALS: usize = 23;

/// At width 1 there is no room for two pieces and a gap between them.
const WIDTHS_IN_PIECES: [u8; 7] = [2, 3, 8, 16, 32, 63, 64];

#[derive(Clone, Copy, PartialEq, Eq)]
pub enum Call {
    Run,
    Edit,
    Ask,
    Why,
}

impl Call {
    pub const ALL: [Call; 4] = [Call::Run, Call::Edit, Call::Ask, Call::Why];

    pub fn name(self) -> &'static str {
        ["run", "edit", "ask", "why"][self as usize]
    }

    fn takes_limit(self) -> bool {
        self == Call::Run || self == Call::Edit
    }

    /// The refusals that the documents let this call give, and acceptance.
    fn may_give(self, refusal: usize) -> bool {
        match refusal {
            0..=6 | 9..=15 | 18 => true,
            7 => self != Call::Run,
            8 => self == Call::Edit,
            16 => self == Call::Edit || self == Call::Ask,
            17 | 22 => self == Call::Why,
            19 => self.takes_limit(),
            _ => false,
        }
    }
}

/// Why a kept result was refused.
const KEPT: [Event; 4] =
    [Event::KeptMalformed, Event::KeptOtherBounds, Event::KeptOtherHeader, Event::KeptOtherSort];

/// The events of one case.
pub struct Seen(Vec<bool>);

impl Default for Seen {
    fn default() -> Seen {
        Seen(vec![false; Event::ALL.len()])
    }
}

impl Watch for Seen {
    fn saw(&mut self, event: Event) {
        self.0[event as usize] = true;
    }
}

#[derive(Default)]
pub struct Tally {
    calls: [u64; 4],
    refusals: [[u64; REFUSALS]; 4],
    limits: [[u64; KINDS_OF_LIMIT.len()]; 4],
    relations: [u64; 3],
    /// Those that questions were answered with, and those that lists gave.
    reasons: [[u64; REASONS.len()]; 2],
    /// Questions over other results than the table's own: all, and those that it would have answered
    /// otherwise.
    foreign: [u64; 2],
    ends: [u64; ENDS.len()],
    /// How often, at each width, a range of two pieces told two places apart: in questions, in lists.
    by_pieces: [BTreeMap<u8, u64>; 2],
    aims: [u64; AIMS.len()],
    events: [Vec<u64>; 4],
}

impl Tally {
    pub fn add(&mut self, call: Call, answer: Answer, seen: &Seen) {
        self.calls[call as usize] += 1;
        self.refusals[call as usize][answer.refusal as usize] += 1;
        let events = &mut self.events[call as usize];
        events.resize(Event::ALL.len(), 0);
        for (count, seen) in events.iter_mut().zip(&seen.0) {
            *count += *seen as u64;
        }
    }

    pub fn add_limit(&mut self, call: Call, limit: u64) {
        self.limits[call as usize][kind_of_limit(limit)] += 1;
    }

    /// An accepted question.
    pub fn add_question(&mut self, width: u8, relation: Relation, given: &Given) {
        self.relations[relation as usize] += 1;
        self.add_reason(0, width, given);
    }

    /// An accepted question over another result than the table's own.
    pub fn add_foreign(&mut self, otherwise: bool) {
        self.foreign[0] += 1;
        self.foreign[1] += otherwise as u64;
    }

    pub fn add_list(&mut self, width: u8, list: &List) {
        for store in &list.stores {
            self.add_reason(1, width, &store.given);
        }
        self.ends[list.end as usize] += 1;
    }

    fn add_reason(&mut self, by: usize, width: u8, given: &Given) {
        self.reasons[by][given.reason as usize] += 1;
        *self.by_pieces[by].entry(width).or_default() += given.by_pieces() as u64;
    }

    pub fn add_aim(&mut self, aim: Aim) {
        self.aims[aim as usize] += 1;
    }

    /// Prints the shares and returns how many things were never reached.
    pub fn print(&self) -> u64 {
        let mut never = 0;
        let mut line = |name: &str, count: u64, of: u64| {
            never += (count == 0) as u64;
            let share = 100.0 * count as f64 / of.max(1) as f64;
            let mark = if count == 0 { "  NEVER REACHED" } else { "" };
            println!("  {name:<50} {count:>8} {share:>7.3} %{mark}");
        };
        for call in Call::ALL {
            let cases = self.calls[call as usize];
            println!("{}: {cases} cases, shares of them", call.name());
            for refusal in (0..REFUSALS).filter(|refusal| call.may_give(*refusal)) {
                let name =
                    if refusal == 0 { "accepted".into() } else { format!("refusal {refusal}") };
                line(&name, self.refusals[call as usize][refusal], cases);
            }
        }
        for call in Call::ALL.into_iter().filter(|call| call.takes_limit()) {
            let cases = self.calls[call as usize];
            println!("{}: limits, shares of {cases} cases", call.name());
            for (kind, count) in KINDS_OF_LIMIT.iter().zip(self.limits[call as usize]) {
                line(kind, count, cases);
            }
        }
        for call in [Call::Edit, Call::Ask] {
            let refused = self.refusals[call as usize][16];
            println!("{}: refusal 16, shares of {refused} cases", call.name());
            for event in KEPT {
                line(event.text(), self.count(call, event), refused);
            }
        }
        let accepted = self.relations.iter().sum();
        println!("relations, shares of {accepted} questions answered");
        for relation in [Relation::NotKnown, Relation::Same, Relation::Apart] {
            line(&relation.to_string(), self.relations[relation as usize], accepted);
        }
        let [foreign, otherwise] = self.foreign;
        println!("over other results than the table's own, shares of {foreign} questions answered");
        line("another relation than its own result gives", otherwise, foreign);
        for (by, what) in ["questions answered", "stores listed"].iter().enumerate() {
            let reasons = self.reasons[by].iter().sum();
            println!("reasons, shares of {reasons} {what}");
            for (reason, form) in REASONS {
                line(form, self.reasons[by][reason as usize], reasons);
            }
            let in_pieces = self.by_pieces[by].values().sum();
            println!("told apart by a range of two pieces, shares of {in_pieces} {what}");
            for width in WIDTHS_IN_PIECES {
                let count = self.by_pieces[by].get(&width).copied().unwrap_or(0);
                line(&format!("width {width}"), count, in_pieces);
            }
        }
        let lists = self.ends.iter().sum();
        println!("ends listed, shares of {lists} lists");
        for (end, count) in ENDS.iter().zip(self.ends) {
            line(end, count, lists);
        }
        let edits = self.aims.iter().sum();
        println!("names of variables, shares of {edits} edits made for them");
        for (aim, text) in AIMS {
            line(text, self.aims[aim as usize], edits);
        }
        let cases = self.calls.iter().sum();
        println!("rules and ends of walks, shares of all {cases} cases");
        for event in Event::ALL.iter().filter(|event| !KEPT.contains(event)) {
            let count = Call::ALL.iter().map(|call| self.count(*call, *event)).sum();
            line(event.text(), count, cases);
        }
        never
    }

    fn count(&self, call: Call, event: Event) -> u64 {
        self.events[call as usize].get(event as usize).copied().unwrap_or(0)
    }
}
