//! What the programs are told: `why` and `compare` the numbers of rows, `show` a limit or nothing.

use crate::HIGHEST_LIMIT;
use std::ffi::{OsStr, OsString};

/// The arguments of this program, where they are so many numbers and nothing else.
pub fn row_numbers<const N: usize>() -> Option<[u64; N]> {
    let numbers = arguments().map(|argument| number(&argument));
    numbers.collect::<Option<Vec<u64>>>()?.try_into().ok()
}

/// The limit that `--limit` and a number give, or the highest where this program has no arguments.
pub fn limit() -> Option<u64> {
    let given: Vec<OsString> = arguments().collect();
    match &given[..] {
        [] => Some(HIGHEST_LIMIT),
        [word, limit] if word == "--limit" => number(limit).filter(|limit| *limit <= HIGHEST_LIMIT),
        _ => None,
    }
}

fn arguments() -> impl Iterator<Item = OsString> {
    std::env::args_os().skip(1)
}

/// One to twenty digits, nothing else, of a value that fits 64 bits.
fn number(argument: &OsStr) -> Option<u64> {
    let digits = argument.to_str()?;
    let only_digits = digits.bytes().all(|byte| byte.is_ascii_digit());
    (only_digits && digits.len() <= 20).then(|| digits.parse().ok()).flatten()
}
