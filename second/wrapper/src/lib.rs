//! Stezkoun for Rust: slices in, enums out. `numbers` gives the answers as C sees them.

pub mod numbers;
mod refusal;

pub use refusal::Refusal;

/// The highest limit that a run or an edit takes; with it no read is kept from comparing a store.
pub const LIMIT: u64 = 1024;

/// An accepted call.
#[derive(Clone, Copy, PartialEq, Eq, Debug)]
pub struct Done {
    /// Rows that are READ in the table and not READ in the result.
    pub removed: u64,
    /// Rows that were worked out.
    pub touched: u64,
    /// Stores that the READ rows among them were compared with; of `why` 0.
    pub compared: u64,
}

/// What is known of two word rows.
#[derive(Clone, Copy, PartialEq, Eq, Debug)]
pub enum Relation {
    NotKnown,
    Same,
    Apart,
}

/// Simplifies `table` into the first bytes of `result`. Each READ is compared with at most `limit`
/// stores.
pub fn run(table: &[u8], result: &mut [u8], limit: u64) -> Result<Done, Refusal> {
    outcome(numbers::run(table, result, limit))
}

/// Replaces row `row` of `table` and works out what depends on it in the kept result, each READ with
/// at most `limit` stores. With the limit that the kept result was made with, the outcome is that of a
/// fresh run.
pub fn edit(
    table: &mut [u8], kept: &mut [u8], row: u64, replacement: &[u8], limit: u64,
) -> Result<Done, Refusal> {
    outcome(numbers::edit(table, kept, row, replacement, limit))
}

/// What is known of two word rows of `table`, by their rows in its kept result. Both buffers are only
/// read, so that one result may be asked any number of times.
pub fn ask(table: &[u8], kept: &[u8], first: u64, second: u64) -> Result<Relation, Refusal> {
    let comparison = numbers::ask(table, kept, first, second);
    let relation = match comparison.relation {
        1 => Relation::Same,
        2 => Relation::Apart,
        _ => Relation::NotKnown,
    };
    outcome(comparison.answer).map(|_| relation)
}

/// Simplifies `table` into `result` and lists why its READ row `row` moved. The list is the first
/// bytes of `list`, which are given back.
pub fn why<'l>(
    table: &[u8], result: &mut [u8], row: u64, list: &'l mut [u8],
) -> Result<(Done, &'l [u8]), Refusal> {
    let numbers::Listing { answer, length } = numbers::why(table, result, row, list);
    listed(answer, length).map(|done| (done, &list[..length as usize]))
}

fn outcome(answer: numbers::Answer) -> Result<Done, Refusal> {
    listed(answer, 0)
}

/// The outcome of a call that has a list of this length, or none and 0.
fn listed(answer: numbers::Answer, length: u64) -> Result<Done, Refusal> {
    match Refusal::from_numbers(answer.refusal, answer.row, length) {
        None => {
            let numbers::Answer { removed, touched, compared, .. } = answer;
            Ok(Done { removed, touched, compared })
        }
        Some(refusal) => Err(refusal),
    }
}
