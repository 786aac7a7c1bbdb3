//! What a limit on the stores that each READ compares does to the time of a run and of an edit.

use crate::families::{Family, Subject, STORES};
use crate::{plain, timing, Call};
use second::Row;
use std::hint::black_box;
use stezkoun::numbers;
use tables::stores::Told;

/// From none up to the highest, with which every walk comes to its end.
pub const LIMITS: [u64; 7] = [0, 1, 4, 16, 64, 256, 1024];

fn subjects() -> Vec<(String, Subject)> {
    let families = [Family::Stack, Family::StackAndHeap, Family::StackAcrossZero, Family::Chain];
    let mut subjects: Vec<(String, Subject)> =
        families.map(|family| (family.name().into(), Subject::new(family, 1024))).into();
    subjects.extend(STORES.map(|stores| {
        let told = match stores.0 {
            Told::ByBase => "their base",
            Told::ByRanges => "their ranges",
        };
        (format!("reads that pass every store, told apart by {told}"), Subject::passed(stores))
    }));
    subjects
}

fn run(subject: &Subject, limit: u64) -> Call<'_> {
    let (table, mut result) = (&subject.table, subject.result.clone());
    Box::new(move || {
        black_box(numbers::run(black_box(table), &mut result, limit));
    })
}

fn plain_run(subject: &Subject, limit: u64) -> Call<'_> {
    let (table, mut result) = (&subject.table, subject.result.clone());
    Box::new(move || {
        black_box(plain::run(black_box(table), &mut result, limit));
    })
}

/// The first variable moved and put back, over a result that was made with the same limit.
fn edit(subject: &Subject, limit: u64) -> Call<'_> {
    let edit = subject.edits().swap_remove(0);
    let (mut table, mut kept, mut turn) = (subject.table.clone(), subject.within(limit).1, 0);
    Box::new(move || {
        let replacement = &edit.replacements[turn];
        black_box(numbers::edit(&mut table, &mut kept, edit.row, replacement, limit));
        turn ^= 1;
    })
}

/// What a run, plain C's run and an edit take with each limit, all of them taking turns.
fn measured(subject: &Subject) -> [Vec<f64>; 3] {
    let calls: [fn(&Subject, u64) -> Call<'_>; 3] = [run, plain_run, edit];
    let mut calls: Vec<Call> =
        calls.iter().flat_map(|call| LIMITS.map(|limit| call(subject, limit))).collect();
    let figures = timing::least(&mut calls);
    let mut each = figures.chunks(LIMITS.len()).map(|figures| figures.to_vec());
    [(); 3].map(|_| each.next().expect("figures of each call"))
}

/// Of fewer stores the difference of two times says nothing.
const FEWEST_TO_TELL: u64 = 2000;

pub fn print() {
    println!(
        "\ntables of 1,024 rows within a limit L on the stores that each READ is compared with"
    );
    println!("ns a call, the least of the rounds");
    println!("most: L times the READ rows; removed: reads that are none in the result");
    println!(
        "each: ns for a store compared, beyond the time with L = 0, where they are 2,000 or more"
    );
    println!(
        "of 1,024: the time as a share of that with L = 1,024; ratio: against plain C with this L"
    );
    println!("edit: the first variable moved, over a result that was made with this L");
    for (name, subject) in subjects() {
        let stores = subject.count(|row| matches!(row, Row::Write { .. }));
        let reads = subject.count(|row| row.is_read());
        println!(" {name}: {stores} stores, {reads} reads");
        let [l, most, compared, removed, run] = ["L", "most", "compared", "removed", "run"];
        let [part, each, plain, ratio, edit] = ["of 1,024", "each", "plain C", "ratio", "edit"];
        println!(
            "  {l:>5} {most:>8} {compared:>8} {removed:>7} {run:>9} {part:>8} {each:>6} \
            {plain:>9} {ratio:>6} {edit:>9} {part:>8}"
        );
        let [runs, plains, edits] = measured(&subject);
        for (i, limit) in LIMITS.into_iter().enumerate() {
            let second::Answer { compared, removed, .. } = subject.within(limit).0;
            let most = limit * reads as u64;
            let ([run, plain, edit], last) = ([runs[i], plains[i], edits[i]], LIMITS.len() - 1);
            let each = match compared {
                FEWEST_TO_TELL.. => format!("{:.2}", (run - runs[0]) / compared as f64),
                _ => "-".to_string(),
            };
            let parts = [run / runs[last], edit / edits[last]];
            println!(
                "  {limit:>5} {most:>8} {compared:>8} {removed:>7} {run:>9.0} {:>8.2} {each:>6} \
                {plain:>9.0} {:>6.2} {edit:>9.0} {:>8.2}",
                parts[0],
                run / plain,
                parts[1]
            );
        }
    }
}
