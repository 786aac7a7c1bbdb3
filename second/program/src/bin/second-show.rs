//! Reads one table from standard input and prints its result as text, with the limit that its
//! arguments give on what each read compares.

use second::arguments::limit;
use second::text::{read_table, shown};
use std::io::{self, Write};

const USE: &str = "use: show [--limit L] < TABLE, L from 0 to 1024\n";

fn main() -> io::Result<()> {
    let text = match limit() {
        Some(limit) => shown(&read_table()?, limit),
        None => USE.into(),
    };
    io::stdout().write_all(text.as_bytes())
}
