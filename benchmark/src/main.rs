//! The library beside the second program and beside plain C: time, growth, and stack.

mod depth;
mod families;
mod limits;
mod plain;
mod timing;

use families::{Edit, Family, Question, Subject, NAMES, SIZES, STORES};
use limits::LIMITS;
use second::text::LONGEST_LIST;
use std::hint::black_box;
use stezkoun::{numbers, LIMIT};

type Call<'a> = Box<dyn FnMut() + 'a>;

fn runs(subject: &Subject) -> Vec<Call<'_>> {
    let table = &subject.table;
    let [mut first, mut second, mut third] = [(); 3].map(|_| vec![0; table.len()]);
    vec![
        Box::new(move || {
            black_box(numbers::run(black_box(table), &mut first, LIMIT));
        }),
        Box::new(move || {
            black_box(second::run(black_box(table), &mut second, LIMIT));
        }),
        Box::new(move || {
            black_box(plain::run(black_box(table), &mut third, LIMIT));
        }),
    ]
}

fn edits<'a>(subject: &Subject, edit: &Edit) -> Vec<Call<'a>> {
    let Edit { row, replacements, .. } = *edit;
    let buffers = || (subject.table.clone(), subject.result.clone(), 0);
    let (mut table, mut kept, mut turn) = buffers();
    let (mut second_table, mut second_kept, mut second_turn) = buffers();
    vec![
        Box::new(move || {
            let replacement = &replacements[turn];
            black_box(numbers::edit(&mut table, &mut kept, row, replacement, LIMIT));
            turn ^= 1;
        }),
        Box::new(move || {
            let replacement = &replacements[second_turn];
            black_box(second::edit(&mut second_table, &mut second_kept, row, replacement, LIMIT));
            second_turn ^= 1;
        }),
    ]
}

fn questions(subject: &Subject, rows: [u64; 2]) -> Vec<Call<'_>> {
    let Subject { table, result, .. } = subject;
    let [first, second] = rows;
    vec![
        Box::new(move || {
            black_box(numbers::ask(black_box(table), result, first, second));
        }),
        Box::new(move || {
            black_box(second::ask(black_box(table), result, first, second));
        }),
    ]
}

fn lists(subject: &Subject) -> Vec<Call<'_>> {
    let table = &subject.table;
    let [mut one, mut other] = [(); 2].map(|_| (vec![0; table.len()], vec![0; LONGEST_LIST]));
    let row = subject.listed();
    vec![
        Box::new(move || {
            black_box(numbers::why(table, &mut one.0, row, &mut one.1));
        }),
        Box::new(move || {
            black_box(second::why(table, &mut other.0, row, &mut other.1));
        }),
    ]
}

/// What is measured must be right, with each limit.
fn check(subject: &Subject) {
    for limit in LIMITS {
        check_within(subject, limit);
    }
    for Question { name, rows: [first, second] } in subject.questions() {
        let asked = numbers::ask(&subject.table, &subject.result, first, second);
        let expected = second::ask(&subject.table, &subject.result, first, second);
        assert_eq!(asked.answer.refusal, 0, "{name}");
        assert_eq!(asked.relation, expected.relation() as u64, "{name}");
    }
    let (row, mut list) = (subject.listed(), vec![0; LONGEST_LIST]);
    let listing = numbers::why(&subject.table, &mut subject.result.clone(), row, &mut list);
    let expected = second::text::listed(&subject.table, row);
    assert_eq!(listing.length, expected.len() as u64, "the length of a list");
    assert!(list.starts_with(expected.as_bytes()), "a wrong list");
}

fn check_within(subject: &Subject, limit: u64) {
    let (answer, own) = subject.within(limit);
    let [mut by_library, mut by_plain] = [(); 2].map(|_| vec![0; own.len()]);
    let library = numbers::run(&subject.table, &mut by_library, limit);
    let plain = plain::run(&subject.table, &mut by_plain, limit);
    assert_eq!(library, plain, "the library's and plain C's answers, limit {limit}");
    assert_eq!(library.compared, answer.compared, "stores compared, limit {limit}");
    assert!(by_library == own && by_plain == own, "a wrong result, limit {limit}");
    for edit in subject.edits() {
        let (mut table, mut kept) = (subject.table.clone(), own.clone());
        for replacement in edit.replacements {
            let answer = numbers::edit(&mut table, &mut kept, edit.row, &replacement, limit);
            assert_eq!(answer.refusal, 0, "{}", edit.name);
        }
        assert!(kept == own, "{} and back again, limit {limit}", edit.name);
    }
}

fn head(title: &str, first: &str, last: &str) {
    println!("\n{title}");
    println!(
        "  {first:<12} {:>5} {:>12} {:>12} {:>6} {:>12} {:>6} {:>10} {last:>8}",
        "rows", "library", "second", "ratio", "plain C", "ratio", "Mrows/s"
    );
}

/// One line; the last figure is the library's as a multiple of `before`.
fn line(name: &str, rows: usize, figures: &[f64], before: Option<f64>) {
    let library = figures[0];
    print!("  {name:<12} {rows:>5} {library:>12.0}");
    for figure in &figures[1..] {
        print!(" {figure:>12.0} {:>6.2}", library / figure);
    }
    if figures.len() == 2 {
        print!(" {:>12} {:>6}", "-", "-");
    }
    print!(" {:>10.2}", rows as f64 / library * 1000.0);
    match before {
        Some(before) => println!(" {:>8.2}", library / before),
        None => println!(" {:>8}", "-"),
    }
}

/// What a question costs beside the run that a comparison made first, each time; the ratio says how
/// many questions take the time of one run.
fn questions_and_runs() {
    println!(
        "\na question beside a fresh run for each, as a comparison made it; the library alone"
    );
    let columns = ["last two", "one base", "two bases"];
    print!("  {:>5} {:>10}", "rows", "run");
    columns.iter().for_each(|name| print!(" {name:>10} {:>7}", "ratio"));
    println!();
    for family in Family::ALL {
        println!(" {}", family.name());
        for size in SIZES {
            let subject = Subject::new(family, size);
            let asked = subject.questions();
            assert_eq!(asked.each_ref().map(|question| question.name), columns);
            let mut calls = vec![runs(&subject).swap_remove(0)];
            calls.extend(asked.map(|asked| questions(&subject, asked.rows).swap_remove(0)));
            let figures = timing::measured(&mut calls);
            let run = figures[0];
            print!("  {size:>5} {run:>10.0}");
            figures[1..].iter().for_each(|ask| print!(" {ask:>10.0} {:>7.2}", run / ask));
            println!();
        }
    }
}

/// What ranges in two pieces are for: reads that go past the stores of a stack across zero.
fn removed_reads() {
    println!("\nreads removed, {}", Family::StackAcrossZero.name());
    println!("  {:>5} {:>6} {:>10} {:>10}", "rows", "reads", "one piece", "two pieces");
    for size in SIZES {
        let subject = Subject::new(Family::StackAcrossZero, size);
        let mut result = vec![0; subject.table.len()];
        let before = plain::run_in_one_piece(&subject.table, &mut result).removed;
        let removed = numbers::run(&subject.table, &mut result, LIMIT).removed;
        let reads = subject.rows.iter().filter(|row| row.is_read()).count();
        println!("  {size:>5} {reads:>6} {before:>10} {removed:>10}");
    }
}

/// Runs of tables that differ in names alone, all taking turns.
fn names(tables: &[Subject]) {
    head("a run of a thousand variables that have so many names", "names", "unnamed");
    let mut calls: Vec<Call> = tables.iter().flat_map(runs).collect();
    let figures = timing::measured(&mut calls);
    let each = figures.chunks(figures.len() / tables.len());
    for ((subject, names), figures_of) in tables.iter().zip(NAMES).zip(each) {
        line(&names.to_string(), subject.rows.len(), figures_of, Some(figures[0]));
    }
}

fn main() {
    let mut subjects: Vec<Subject> = (0..20).map(Subject::mixed).collect();
    for size in SIZES {
        subjects.extend(Family::ALL.map(|family| Subject::new(family, size)));
    }
    subjects.extend(NAMES.map(Subject::named));
    subjects.extend(STORES.map(Subject::passed));
    subjects.iter().for_each(check);

    println!("ns a call, medians, width 32; a ratio above 1 says that the library is slower");
    println!("growth: the library's cost as a multiple of its cost at a quarter of the rows");
    println!("unnamed: the library's cost as a multiple of its cost without names");
    for family in Family::ALL {
        head(family.name(), "call", "growth");
        let mut lines: Vec<(&str, usize, Vec<f64>)> = Vec::new();
        for size in SIZES {
            let subject = Subject::new(family, size);
            lines.push(("run", size, timing::measured(&mut runs(&subject))));
            for edit in subject.edits() {
                lines.push((edit.name, size, timing::measured(&mut edits(&subject, &edit))));
            }
            let [last_two, ..] = subject.questions();
            let asked = timing::measured(&mut questions(&subject, last_two.rows));
            lines.push(("ask", size, asked));
            lines.push(("why", size, timing::measured(&mut lists(&subject))));
        }
        for name in ["run", "edit first", "edit middle", "edit last", "ask", "why"] {
            let mut before = None;
            for (_, rows, figures) in lines.iter().filter(|line| line.0 == name) {
                line(name, *rows, figures, before);
                before = Some(figures[0]);
            }
        }
    }
    names(&NAMES.map(Subject::named));
    questions_and_runs();
    removed_reads();
    limits::print();
    println!();
    depth::print(&subjects);
}
