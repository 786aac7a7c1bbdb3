//! The plain C program.

use std::ffi::c_uint;
use stezkoun::numbers::Answer;
use stezkoun::LIMIT;

extern "C" {
    fn plain_run(
        table: *const u8, table_len: usize, result: *mut u8, result_len: usize, limit: u64,
        most_pieces: c_uint,
    ) -> Answer;
}

pub fn run(table: &[u8], result: &mut [u8], limit: u64) -> Answer {
    run_in(2, table, result, limit)
}

/// By the rule of ranges as it was before: each is one piece, and one that straddles is full.
pub fn run_in_one_piece(table: &[u8], result: &mut [u8]) -> Answer {
    run_in(1, table, result, LIMIT)
}

fn run_in(most_pieces: c_uint, table: &[u8], result: &mut [u8], limit: u64) -> Answer {
    let (table_len, result_len) = (table.len(), result.len());
    let (table, result) = (table.as_ptr(), result.as_mut_ptr());
    unsafe { plain_run(table, table_len, result, result_len, limit, most_pieces) }
}
