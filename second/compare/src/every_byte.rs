//! P1, and a table with a name, with every single byte spoiled in turn, in each of the buffers that
//! are lent.

use crate::pair::Pair;
use crate::paper::{p1, table};
use second::bytes::place;
use second::text::listed;
use second::HIGHEST_LIMIT;

/// Other values for a byte: each bit flipped, and the ends.
fn others(byte: u8) -> impl Iterator<Item = u8> {
    let flipped = (0..8).map(move |bit| byte ^ (1 << bit));
    flipped.chain([0, 255, byte.wrapping_add(1)]).filter(move |other| *other != byte)
}

fn spoiled(bytes: &[u8]) -> impl Iterator<Item = Vec<u8>> + '_ {
    (0..bytes.len()).flat_map(move |at| {
        others(bytes[at]).map(move |other| {
            let mut bytes = bytes.to_vec();
            bytes[at] = other;
            bytes
        })
    })
}

pub fn cases(pair: &mut Pair) {
    every_byte_of_p1(pair);
    every_byte_of_names(pair);
}

fn every_byte_of_p1(pair: &mut Pair) {
    pair.group = "every byte of P1".into();
    let table = p1();
    let mut kept = vec![0; table.len()];
    pair.run(&table, &mut kept, HIGHEST_LIMIT);
    // Not enough where an instruction number grows by many digits.
    let room = listed(&table, 8).len() + 3;

    for mut wrong in spoiled(&table) {
        pair.run(&wrong, &mut kept.clone(), HIGHEST_LIMIT);
        pair.ask(&wrong, &kept, [2, 6]);
        pair.why(&wrong, &mut kept.clone(), 8, &mut vec![0x5a; room]);
        pair.edit(&mut wrong, &mut kept.clone(), 5, &table[place(2)], HIGHEST_LIMIT);
    }
    for mut wrong in spoiled(&kept) {
        for numbers in [[2, 6], [7, 2], [3, 7], [0, 8], [4, 2]] {
            pair.ask(&table, &wrong, numbers);
        }
        pair.edit(&mut table.clone(), &mut wrong, 2, &table[place(5)], HIGHEST_LIMIT);
    }
    for row in 0..9 {
        for replacement in spoiled(&table[place(row)]) {
            pair.edit(
                &mut table.clone(),
                &mut kept.clone(),
                row as u64,
                &replacement,
                HIGHEST_LIMIT,
            );
        }
    }
}

fn every_byte_of_names(pair: &mut Pair) {
    pair.group = "every byte of a table with a name".into();
    let table = table(
        "width 8; CONST 7; VAR 515 200 250; FRESH; VAR 515 200 250; WRITE 2 1 0; READ 4 3; \
        VAR 515 200 250",
    );
    let mut kept = vec![0; table.len()];
    pair.run(&table, &mut kept, HIGHEST_LIMIT);
    let replacements = [0, 1, 3].map(|row| &table[place(row)]);

    for wrong in spoiled(&table) {
        pair.run(&wrong, &mut kept.clone(), HIGHEST_LIMIT);
        pair.ask(&wrong, &kept, [1, 3]);
        // As its own result it has a name on two rows.
        pair.ask(&table, &wrong, [1, 3]);
        for row in [0, 1, 3, 6] {
            for replacement in replacements {
                pair.edit(&mut wrong.clone(), &mut kept.clone(), row, replacement, HIGHEST_LIMIT);
            }
        }
    }
    for wrong in spoiled(&kept) {
        pair.ask(&table, &wrong, [1, 3]);
        for replacement in replacements {
            pair.edit(&mut table.clone(), &mut wrong.clone(), 3, replacement, HIGHEST_LIMIT);
        }
    }
    for row in [0, 1, 3, 6] {
        for replacement in spoiled(&table[place(1)]) {
            pair.edit(&mut table.clone(), &mut kept.clone(), row, &replacement, HIGHEST_LIMIT);
        }
    }
}
