//! Why a call was refused.

/// The refusals by their numbers; include/stezkoun.h says what each means, and their order. The length
/// of a list is what to lend for it.
#[derive(Clone, Copy, PartialEq, Eq, Debug)]
pub enum Refusal {
    TableTooShort,
    HeaderMark,
    Width,
    RowCount,
    TableLength,
    ResultTooShort,
    RowNumber,
    ReplacementLength,
    RowMark { row: u64 },
    Kind { row: u64 },
    UnusedField { row: u64 },
    Value { row: u64 },
    Reference { row: u64 },
    Sort { row: u64 },
    Bounds { row: u64 },
    KeptResult,
    NotARead { row: u64 },
    OtherBounds { row: u64 },
    LimitTooHigh,
    ListTooShort { length: u64 },
}

impl Refusal {
    pub(crate) fn from_numbers(refusal: u64, row: u64, length: u64) -> Option<Refusal> {
        Some(match refusal {
            0 => return None,
            1 => Refusal::TableTooShort,
            2 => Refusal::HeaderMark,
            3 => Refusal::Width,
            4 => Refusal::RowCount,
            5 => Refusal::TableLength,
            6 => Refusal::ResultTooShort,
            7 => Refusal::RowNumber,
            8 => Refusal::ReplacementLength,
            9 => Refusal::RowMark { row },
            10 => Refusal::Kind { row },
            11 => Refusal::UnusedField { row },
            12 => Refusal::Value { row },
            13 => Refusal::Reference { row },
            14 => Refusal::Sort { row },
            15 => Refusal::Bounds { row },
            16 => Refusal::KeptResult,
            17 => Refusal::NotARead { row },
            18 => Refusal::OtherBounds { row },
            19 => Refusal::LimitTooHigh,
            22 => Refusal::ListTooShort { length },
            other => unreachable!("libstezkoun gave refusal {other}"),
        })
    }
}
