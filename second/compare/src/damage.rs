//! Faults of every kind, put into a table.

use second::bytes::{place, HEADER, KIND, REFERENCES, ROW, SOURCE, VALUES, ZERO};
use second::Width;
use tables::random::Random;

/// Where the references and values of a row begin, and their sizes.
const FIELDS: [(usize, usize); 5] =
    [(REFERENCES[0], 2), (REFERENCES[1], 2), (REFERENCES[2], 2), (VALUES[0], 8), (VALUES[1], 8)];

pub fn damaged(random: &mut Random, width: Width, table: &[u8]) -> Vec<u8> {
    if random.one_in(40) {
        let length = random.below(100);
        return random.bytes(length);
    }
    let mut bytes = table.to_vec();
    if bytes.len() > HEADER && random.one_in(40) {
        let noise = random.bytes(bytes.len() - HEADER);
        bytes[HEADER..].copy_from_slice(&noise);
    }
    // Two or three faults at once show the order in which they are looked for.
    for _ in 0..random.pick(&[1, 1, 1, 2, 2, 3]) {
        damage(random, width, &mut bytes);
    }
    bytes
}

fn damage(random: &mut Random, width: Width, bytes: &mut Vec<u8>) {
    let rows = bytes.len().saturating_sub(HEADER) / ROW;
    if bytes.len() < HEADER {
        return;
    }
    match random.below(if rows == 0 { 3 } else { 13 }) {
        0 => header(random, bytes),
        1 => length(random, bytes),
        2 => {
            let at = random.below(bytes.len());
            let flipped = bytes[at] ^ (1 << random.below(8));
            bytes[at] = if random.one_in(2) { flipped } else { random.draw() as u8 };
        }
        3 => {
            let (from, to) = (random.below(rows), random.below(rows));
            let moved = bytes[place(from)].to_vec();
            bytes[place(to)].copy_from_slice(&moved);
        }
        4 => one_name(random, rows, bytes),
        _ => {
            let number = random.below(rows);
            row(random, width, number, &mut bytes[place(number)]);
        }
    }
}

/// Gives two variables one name, whatever their bounds.
fn one_name(random: &mut Random, rows: usize, bytes: &mut [u8]) {
    let variables: Vec<usize> = (0..rows).filter(|row| bytes[place(*row)][KIND] == 2).collect();
    if variables.is_empty() {
        return;
    }
    let name: u16 = random.pick(&[1, 3, 259, 65_535]);
    for _ in 0..2 {
        let row = random.pick(&variables);
        bytes[place(row)][REFERENCES[0]..][..2].copy_from_slice(&name.to_le_bytes());
    }
}

fn header(random: &mut Random, bytes: &mut [u8]) {
    let rows = u16::from_le_bytes([bytes[4], bytes[5]]);
    match random.below(4) {
        0 => bytes[random.below(2)] ^= 1 << random.below(8),
        1 => bytes[3] = random.pick(&[1, 0x80, 0xff]),
        2 => bytes[2] = random.pick(&[0, 65, 255, 1, 64, 8]),
        _ => {
            let near = [rows.wrapping_add(1), rows.wrapping_sub(1)];
            let wrong = random.pick(&[near[0], near[1], 0, 1024, 1025, 65535]);
            bytes[4..6].copy_from_slice(&wrong.to_le_bytes());
        }
    }
}

fn length(random: &mut Random, bytes: &mut Vec<u8>) {
    let length = bytes.len();
    let wrong = match random.below(7) {
        0 => random.below(HEADER),
        1 => length - 1,
        2 => length + 1,
        3 => length + ROW,
        4 => length.saturating_sub(ROW),
        // As if the rows had no instruction numbers.
        5 => HEADER + length.saturating_sub(HEADER) / ROW * SOURCE,
        _ => random.below(length + 40),
    };
    bytes.resize(wrong, 0);
}

/// Damages one row, given its number and its bytes. To damage its instruction number is no fault.
pub fn row(random: &mut Random, width: Width, number: usize, bytes: &mut [u8]) {
    let mut put = |at: usize, size: usize, value: u64| {
        bytes[at..at + size].copy_from_slice(&value.to_le_bytes()[..size]);
    };
    match random.below(9) {
        0 => put(random.below(2), 1, random.draw()),
        1 => put(ZERO, 1, random.from_to(1, 255)),
        2 => put(KIND, 1, random.pick(&[0, 10, 11, 255])),
        3 => put(KIND, 1, random.from_to(1, 9)),
        4 => {
            let (at, size) = random.pick(&FIELDS);
            let any = random.draw();
            put(at, size, random.pick(&[0, 1, 2, any]));
        }
        5 => {
            let above = if width.bits() == 64 { 0 } else { 1 << width.bits() };
            let value = random.pick(&[above, width.largest(), u64::MAX, above << 1]);
            put(random.pick(&VALUES), 8, value);
        }
        6 => {
            let own = number as u64;
            let wrong = random.pick(&[own, own + 1, own.wrapping_sub(1), 65535]);
            put(random.pick(&REFERENCES), 2, wrong);
        }
        7 => put(SOURCE, 4, random.source().into()),
        _ => {
            // Any earlier row: often one of the other sort.
            for at in REFERENCES {
                if random.one_in(2) {
                    put(at, 2, random.below(number + 1) as u64);
                }
            }
            if bytes[KIND] == 2 && random.one_in(2) {
                let [low, high] = VALUES;
                (0..8).for_each(|i| bytes.swap(low + i, high + i));
            }
        }
    }
}

/// A result slice: mostly as long as the table or longer, at times too short.
pub fn result_slice(random: &mut Random, table: &[u8]) -> Vec<u8> {
    let length = match random.below(8) {
        0 => table.len() + 1 + random.below(60),
        1 if random.one_in(4) => table.len().saturating_sub(1 + random.below(30)),
        2 if random.one_in(16) => random.below(table.len() + 1),
        _ => table.len(),
    };
    random.bytes(length)
}

/// A row number: mostly of a row, at times out of range.
pub fn row_number(random: &mut Random, table: &[u8]) -> u64 {
    let rows = table.len().saturating_sub(HEADER) / ROW;
    if rows > 0 && !random.one_in(20) {
        return random.below(rows) as u64;
    }
    random.pick(&[rows as u64, rows as u64 + 1, 1024, 65_535, 65_536, 1 << 32, u64::MAX])
}
