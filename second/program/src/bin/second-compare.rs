//! Reads one table from standard input and prints what is known of the two word rows named by its
//! arguments, and how.

use second::arguments::row_numbers;
use second::text::{compared, read_table};
use std::io::{self, Write};

const USE: &str = "use: compare ROW ROW < TABLE\n";

fn main() -> io::Result<()> {
    let text = match row_numbers() {
        Some([first, second]) => compared(&read_table()?, first, second),
        None => USE.into(),
    };
    io::stdout().write_all(text.as_bytes())
}
