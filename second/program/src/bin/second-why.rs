//! Reads one table from standard input and prints why the READ row named by its argument moved.

use second::arguments::row_numbers;
use second::text::{listed, read_table};
use std::io::{self, Write};

const USE: &str = "use: why ROW < TABLE\n";

fn main() -> io::Result<()> {
    let text = match row_numbers() {
        Some([row]) => listed(&read_table()?, row),
        None => USE.into(),
    };
    io::stdout().write_all(text.as_bytes())
}
