//! Simplifies table P1, asks the result about pairs of rows and why its last read moved, widens its
//! variable and sees what becomes of the result and the answers, and keeps all reads from being
//! compared with stores.

use stezkoun::{Done, Refusal, LIMIT};

const HEADER: usize = 6;
const ROW: usize = 30;
const SOURCE: usize = 26;
const CONST: u8 = 1;
const VAR: u8 = 2;

fn row(kind: u8, references: [u16; 3], values: [u64; 2], instruction: u32) -> [u8; ROW] {
    let mut bytes = [0; ROW];
    bytes[..3].copy_from_slice(&[0x52, 0x4f, kind]);
    for (i, reference) in references.iter().enumerate() {
        bytes[4 + 2 * i..][..2].copy_from_slice(&reference.to_le_bytes());
    }
    for (i, value) in values.iter().enumerate() {
        bytes[10 + 8 * i..][..8].copy_from_slice(&value.to_le_bytes());
    }
    bytes[SOURCE..].copy_from_slice(&instruction.to_le_bytes());
    bytes
}

fn print_rows(table: &[u8]) {
    for (number, row) in table[HEADER..].chunks(ROW).enumerate() {
        let short = |at: usize| u16::from_le_bytes(row[at..at + 2].try_into().unwrap());
        let long = |at: usize| u64::from_le_bytes(row[at..at + 8].try_into().unwrap());
        let (kind, [a, b, c], [k, h]) = (row[2], [4, 6, 8].map(short), [10, 18].map(long));
        let instruction = u32::from_le_bytes(row[SOURCE..].try_into().unwrap());
        println!("{number} {kind} {a} {b} {c} {k} {h} {instruction}");
    }
}

fn print_done(call: &str, done: Done) {
    let Done { removed, touched, compared } = done;
    println!("{call}: removed {removed} touched {touched} compared {compared}");
}

/// Asks any number of questions over one result; none runs anything.
fn print_relations(table: &[u8], result: &[u8]) -> Result<(), Refusal> {
    for (first, second) in [(2, 6), (0, 2), (2, 7)] {
        let relation = stezkoun::ask(table, result, first, second)?;
        println!("rows {first} and {second}: {relation:?}");
    }
    Ok(())
}

fn main() -> Result<(), Refusal> {
    let mut table = include_bytes!("../../p1.table").to_vec();
    let mut result = vec![0; table.len()];

    print_done("run", stezkoun::run(&table, &mut result, LIMIT)?);
    print_rows(&result);

    print_relations(&table, &result)?;

    let mut room = [0; 512];
    let (done, list) = stezkoun::why(&table, &mut result, 8, &mut room)?;
    print_done("why", done);
    print!("{}", String::from_utf8_lossy(list));

    // With the pointer anywhere from 0, as instruction 3 has it, row 2 may be 7, and the last read no
    // longer passes the store. The limit is the one of the run.
    let wide = row(VAR, [0; 3], [0, 250], 3);
    print_done("edit", stezkoun::edit(&mut table, &mut result, 0, &wide, LIMIT)?);
    print_rows(&result);
    print_relations(&table, &result)?;

    // A word in the place of the memory: row 4 would write into it.
    let word = row(CONST, [0; 3], [0; 2], 3);
    match stezkoun::edit(&mut table, &mut result, 1, &word, LIMIT) {
        Err(refusal) => println!("refused: {refusal:?}"),
        Ok(_) => unreachable!("a WRITE on a word is refused"),
    }
    // A question about the memory and the store: arrays are no words.
    match stezkoun::ask(&table, &result, 1, 4) {
        Err(refusal) => println!("refused: {refusal:?}"),
        Ok(_) => unreachable!("an array row is refused"),
    }

    // With the limit 0 both reads stay where they are.
    print_done("run, limit 0", stezkoun::run(&table, &mut result, 0)?);
    print_rows(&result);
    match stezkoun::run(&table, &mut result, LIMIT + 1) {
        Err(refusal) => println!("refused: {refusal:?}"),
        Ok(_) => unreachable!("a limit above 1,024 is refused"),
    }
    Ok(())
}
