//! Holds the library, through its C functions, to the second program.

mod aims;
mod asked;
mod damage;
mod edited;
mod every_byte;
mod groups;
mod kept;
mod leads;
mod lent;
mod limits;
mod line;
mod lines;
mod meaning;
mod names;
mod orders;
mod pair;
mod paper;
mod pieces;
mod pipes;
mod questions;
mod reasons;
mod recount;
mod registers;
mod replacement;
mod sources;
mod spent;
mod tally;
mod walks;
mod within;

use pair::Pair;
use std::path::PathBuf;
use std::process::ExitCode;
use std::time::Instant;

const USAGE: &str = "compare [SEED] [--groups N] [--only GROUP] [--trace]
        [--show PROGRAM [--second-show PROGRAM]] [--why PROGRAM [--second-why PROGRAM]]
        [--compare PROGRAM [--second-compare PROGRAM]]";

struct Wishes {
    seed: u64,
    groups: u64,
    only: Option<u64>,
    /// Names each group before it begins, should the library not come back.
    trace: bool,
    show: Option<PathBuf>,
    second_show: PathBuf,
    why: Option<PathBuf>,
    second_why: PathBuf,
    compare: Option<PathBuf>,
    second_compare: PathBuf,
}

fn wishes() -> Option<Wishes> {
    let this = std::env::current_exe().ok()?;
    let beside = |name: &str| this.with_file_name(name);
    let mut wishes = Wishes {
        seed: 20260101,
        groups: 21_000,
        only: None,
        trace: false,
        show: None,
        second_show: beside("second-show"),
        why: None,
        second_why: beside("second-why"),
        compare: None,
        second_compare: beside("second-compare"),
    };
    let mut words = std::env::args().skip(1);
    while let Some(word) = words.next() {
        match word.as_str() {
            "--groups" => wishes.groups = words.next()?.parse().ok()?,
            "--only" => wishes.only = Some(words.next()?.parse().ok()?),
            "--trace" => wishes.trace = true,
            "--show" => wishes.show = Some(words.next()?.into()),
            "--second-show" => wishes.second_show = words.next()?.into(),
            "--why" => wishes.why = Some(words.next()?.into()),
            "--second-why" => wishes.second_why = words.next()?.into(),
            "--compare" => wishes.compare = Some(words.next()?.into()),
            "--second-compare" => wishes.second_compare = words.next()?.into(),
            seed => wishes.seed = seed.parse().ok()?,
        }
    }
    Some(wishes)
}

fn main() -> ExitCode {
    let Some(wishes) = wishes() else {
        eprintln!("{USAGE}");
        return ExitCode::from(2);
    };
    let began = Instant::now();
    let mut pair = Pair::new(wishes.seed);
    println!("seed {}", wishes.seed);
    if let Some(group) = wishes.only {
        groups::cases(&mut pair, group);
        println!("compared {} cases, {} differences", pair.cases, pair.differences);
        return ExitCode::from((pair.differences != 0) as u8);
    }
    paper::cases(&mut pair);
    walks::stated(&mut pair);
    pieces::cases(&mut pair);
    registers::cases(&mut pair);
    asked::cases(&mut pair);
    orders::cases(&mut pair);
    within::cases(&mut pair);
    every_byte::cases(&mut pair);
    for group in 0..wishes.groups {
        if wishes.trace {
            eprintln!("group {group}");
        }
        groups::cases(&mut pair, group);
    }
    let never = pair.tally.print();
    if let Some(show) = &wishes.show {
        pipes::show(&mut pair, [show, &wishes.second_show]);
    }
    if let Some(why) = &wishes.why {
        pipes::why(&mut pair, [why, &wishes.second_why]);
    }
    if let Some(compare) = &wishes.compare {
        pipes::compare(&mut pair, [compare, &wishes.second_compare]);
    }
    println!("{} tables generated, {:.1} s", wishes.groups, began.elapsed().as_secs_f64());
    if never != 0 {
        println!("{never} of the things above were never reached");
    }
    println!("compared {} cases, {} differences", pair.cases, pair.differences);
    ExitCode::from((pair.differences != 0 || never != 0) as u8)
}
