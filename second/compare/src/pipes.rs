//! The programs `show`, `why` and `compare` beside `second-show`, `second-why` and `second-compare`:
//! both of a kind are given the same arguments and read the same tables through pipes.

use crate::damage::{damaged, row_number};
use crate::groups::some_rows;
use crate::limits;
use crate::pair::{hex, Pair};
use crate::paper::p1;
use crate::questions::two_rows;
use crate::walks::reads;
use second::bytes::{MOST_ROWS, ROW};
use second::check::{check_header, check_rows};
use second::{Row, Width};
use std::ffi::OsStr;
use std::io::Write;
use std::os::unix::ffi::OsStrExt;
use std::path::Path;
use std::process::{Command, Stdio};
use tables::random::Random;
use tables::sources::numbered;

const TABLES: u64 = 400;

/// Numbers as arguments, and what is not the number of one row, which is all that `why` is told.
const NUMBERS: [&str; 6] =
    ["0", "08", "00000000000000000008", "1024", "10000000000000000000", "18446744073709551615"];
const WRONG: [&[&[u8]]; 19] = [
    &[],
    &[b""],
    &[b"", b"8"],
    &[b"8", b""],
    &[b"8", b"8"],
    &[b"8", b"8", b"8"],
    &[b"+8"],
    &[b"-8"],
    &[b" 8"],
    &[b"8 "],
    &[b"8\n"],
    &[b"8x"],
    &[b"eight"],
    &[b"/8"],
    &[b":8"],
    &[b"8\xff"],
    // 8 + 2^64, another that does not fit 64 bits, and one digit too many.
    &[b"18446744073709551624"],
    &[b"99999999999999999999"],
    &[b"000000000000000000008"],
];

/// What `show` is told: limits, and what is none; and the line that it then prints.
const LIMITS: [&str; 7] = ["0", "1", "08", "00000000000000000008", "1023", "1024", "01024"];
const NO_LIMITS: [&[&str]; 21] = [
    &["--limit"],
    &["--limit", "1025"],
    &["--limit", "2048"],
    &["--limit", "4294967299"],
    &["--limit", "9223372036854775808"],
    &["--limit", "18446744073709551615"],
    &["--limit", "--limit"],
    &["--limit", "8", "--limit"],
    &["--limit", "8", "--limit", "8"],
    &["--limit", "--limit", "8"],
    &["--limit=8"],
    &["--limit 8"],
    &["--limit", "8", "8"],
    &["--limit", "0x8"],
    &["-limit", "8"],
    &["limit", "8"],
    &["--Limit", "8"],
    &["--limits", "8"],
    &["--limi", "8"],
    &["8", "--limit"],
    &["-l", "8"],
];
const USE_OF_SHOW: &[u8] = b"use: show [--limit L] < TABLE, L from 0 to 1024\n";

/// What a program is told, and what it finds on standard input.
struct Call {
    arguments: Vec<Vec<u8>>,
    input: Vec<u8>,
}

fn printed(program: &Path, call: &Call) -> Vec<u8> {
    let mut child = Command::new(program)
        .args(call.arguments.iter().map(|argument| OsStr::from_bytes(argument)))
        .stdin(Stdio::piped())
        .stdout(Stdio::piped())
        .spawn()
        .unwrap_or_else(|fault| panic!("{}: {fault}", program.display()));
    // A program that has read enough may close its end: that is no fault.
    let _ = child.stdin.take().expect("piped").write_all(&call.input);
    child.wait_with_output().expect("a child's output").stdout
}

fn inputs(seed: u64) -> Vec<Vec<u8>> {
    let mut inputs = vec![vec![], p1()];
    let eight = Width::new(8).unwrap();
    let full = numbered(&mut Random::new(seed), eight, &vec![Row::Fresh; MOST_ROWS]);
    // A byte short, just full, and longer by what a program sees and by what it does not.
    let most = full.len();
    for length in [most - 1, most, most + 1, most + 2, most + ROW, most + 30_000] {
        let mut input = full.clone();
        input.resize(length, 0);
        inputs.push(input);
    }
    for number in 0..TABLES {
        let random = &mut Random::stream(!seed, number);
        let width = random.width();
        let rows = some_rows(random, width, number);
        let table = numbered(random, width, &rows);
        let spoil = random.one_in(3);
        inputs.push(if spoil { damaged(random, width, &table) } else { table });
    }
    inputs
}

/// The program and the second one.
pub type Programs<'p> = [&'p Path; 2];

/// Each table without a limit and with one.
pub fn show(pair: &mut Pair, programs: Programs) {
    let random = &mut Random::new(!pair.seed);
    let within = |limit: &str| vec![b"--limit".to_vec(), limit.into()];
    let mut calls = Vec::new();
    for input in inputs(pair.seed) {
        let limit = limits::some(random, input.len() / ROW).to_string();
        for arguments in [vec![], within(&limit)] {
            calls.push(Call { arguments, input: input.clone() });
        }
    }
    calls.extend(LIMITS.map(|limit| Call { arguments: within(limit), input: p1() }));
    alike(pair, "show", programs, calls);

    // What is no number, alone and in a limit's place; without any it is no fault.
    let words = WRONG.iter().filter(|words| !words.is_empty());
    let wrong = words.flat_map(|words| {
        let limit: &[u8] = b"--limit";
        [words.to_vec(), [&[limit], *words].concat()]
    });
    let no_limits =
        NO_LIMITS.iter().map(|words| words.iter().map(|word| word.as_bytes()).collect());
    let calls: Vec<Call> = wrong
        .chain(no_limits)
        .map(|words| Call {
            arguments: words.into_iter().map(|word| word.to_vec()).collect(),
            input: p1(),
        })
        .collect();
    for call in &calls {
        let told = printed(programs[1], call) == USE_OF_SHOW;
        pair.expect(told, || format!("second-show {:?}", call.arguments));
    }
    alike(pair, "show, told otherwise", programs, calls);
}

pub fn why(pair: &mut Pair, programs: Programs) {
    let random = &mut Random::new(!pair.seed);
    let mut calls = Vec::new();
    for input in inputs(pair.seed) {
        let reads = reads(&input);
        let row = match random.below(4) {
            0..=2 if !reads.is_empty() => random.pick(&reads),
            _ => row_number(random, &input),
        };
        calls.push(Call { arguments: vec![row.to_string().into()], input });
    }
    let numbers = NUMBERS.map(|number| vec![number.into()]);
    let wrong = WRONG.map(|words| words.iter().map(|word| word.to_vec()).collect());
    calls.extend(numbers.into_iter().chain(wrong).map(|arguments| Call { arguments, input: p1() }));
    alike(pair, "why", programs, calls);
}

pub fn compare(pair: &mut Pair, programs: Programs) {
    let random = &mut Random::new(!pair.seed);
    let mut calls = Vec::new();
    for input in inputs(pair.seed) {
        let rows = check_header(&input).and_then(|header| check_rows(&input, header));
        for _ in 0..2 {
            let numbers = two_rows(random, &input, rows.as_deref().unwrap_or_default());
            let arguments = numbers.map(|number| number.to_string().into()).to_vec();
            calls.push(Call { arguments, input: input.clone() });
        }
    }
    // One of the two is no number, or there are not two.
    let eight: &[u8] = b"8";
    let in_pairs = WRONG.iter().flat_map(|words| match words {
        [word] => vec![vec![*word], vec![*word, eight], vec![eight, *word]],
        words => vec![words.to_vec()],
    });
    let wrong = in_pairs
        .chain([vec![eight], vec![eight; 3], vec![eight; 4]])
        .filter(|words| *words != [eight; 2]);
    let numbers = NUMBERS.iter().flat_map(|number| {
        let number = number.as_bytes();
        [vec![number, eight], vec![eight, number]]
    });
    calls.extend(numbers.chain(wrong).map(|words| Call {
        arguments: words.into_iter().map(|word| word.to_vec()).collect(),
        input: p1(),
    }));
    alike(pair, "compare", programs, calls);
}

fn alike(pair: &mut Pair, name: &str, [program, second]: Programs, calls: Vec<Call>) {
    println!("{name}: {} calls through pipes", calls.len());
    for (number, call) in calls.iter().enumerate() {
        pair.group = format!("{name} {number}");
        pair.cases += 1;
        let [given, expected] = [program, second].map(|program| printed(program, call));
        pair.expect(given == expected && !expected.is_empty(), || {
            let [given, expected] =
                [given, expected].map(|text| String::from_utf8_lossy(&text).into_owned());
            let arguments: Vec<_> =
                call.arguments.iter().map(|word| String::from_utf8_lossy(word)).collect();
            let input = hex(&call.input);
            format!("{name} {arguments:?} printed\n{given}\nsecond\n{expected}\nfor {input}")
        });
    }
}
