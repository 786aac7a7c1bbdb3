//! The C functions over slices, with their answers as bare numbers.

#[repr(C)]
#[derive(Clone, Copy, PartialEq, Eq, Debug)]
pub struct Answer {
    pub refusal: u64,
    pub row: u64,
    pub removed: u64,
    pub touched: u64,
    pub compared: u64,
}

#[repr(C)]
#[derive(Clone, Copy, PartialEq, Eq, Debug)]
pub struct Comparison {
    pub answer: Answer,
    pub relation: u64,
}

#[repr(C)]
#[derive(Clone, Copy, PartialEq, Eq, Debug)]
pub struct Listing {
    pub answer: Answer,
    pub length: u64,
}

extern "C" {
    fn stezkoun_run(
        table: *const u8, table_len: usize, result: *mut u8, result_len: usize, limit: u64,
    ) -> Answer;
    fn stezkoun_edit(
        table: *mut u8, table_len: usize, kept: *mut u8, kept_len: usize, row: u64,
        replacement: *const u8, replacement_len: usize, limit: u64,
    ) -> Answer;
    fn stezkoun_ask(
        table: *const u8, table_len: usize, kept: *const u8, kept_len: usize, first: u64,
        second: u64,
    ) -> Comparison;
    fn stezkoun_why(
        table: *const u8, table_len: usize, result: *mut u8, result_len: usize, row: u64,
        list: *mut u8, list_len: usize,
    ) -> Listing;
}

// Slices are never null, and the borrow rules keep a buffer that is written to from overlapping
// another: that is all the C functions ask of their callers.

pub fn run(table: &[u8], result: &mut [u8], limit: u64) -> Answer {
    unsafe { stezkoun_run(table.as_ptr(), table.len(), result.as_mut_ptr(), result.len(), limit) }
}

pub fn edit(table: &mut [u8], kept: &mut [u8], row: u64, replacement: &[u8], limit: u64) -> Answer {
    unsafe {
        stezkoun_edit(
            table.as_mut_ptr(),
            table.len(),
            kept.as_mut_ptr(),
            kept.len(),
            row,
            replacement.as_ptr(),
            replacement.len(),
            limit,
        )
    }
}

pub fn ask(table: &[u8], kept: &[u8], first: u64, second: u64) -> Comparison {
    unsafe { stezkoun_ask(table.as_ptr(), table.len(), kept.as_ptr(), kept.len(), first, second) }
}

pub fn why(table: &[u8], result: &mut [u8], row: u64, list: &mut [u8]) -> Listing {
    unsafe {
        stezkoun_why(
            table.as_ptr(),
            table.len(),
            result.as_mut_ptr(),
            result.len(),
            row,
            list.as_mut_ptr(),
            list.len(),
        )
    }
}
