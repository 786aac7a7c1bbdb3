//! What a run can be seen to do, for those who count which rules a set of cases reaches.

macro_rules! events {
    ($($name:ident: $text:literal,)*) => {
        #[derive(Clone, Copy, PartialEq, Eq, Debug)]
        pub enum Event { $($name,)* }

        impl Event {
            pub const ALL: &'static [Event] = &[$(Event::$name,)*];

            pub fn text(self) -> &'static str {
                match self { $(Event::$name => $text,)* }
            }
        }
    };
}

events! {
    ReadMetSame: "read ends at a same store",
    ReadStoppedUndecided: "read stops at a store not known",
    ReadStoppedAtFresh: "read stops at a FRESH",
    ReadStoppedSpent: "read stops at a store, none left to compare",
    ReadMetSameLast: "read ends at a same store, the last to compare",
    ReadUndecidedLast: "read stops undecided, at the last store to compare",
    ReadSpentAtFresh: "read stops at a FRESH, none left to compare",
    ReadPassedStores: "read passes at least one store",
    WriteSkipped: "WRITE skips a store at its index",
    WriteSkippedOntoSame: "WRITE skips once onto another store at its index",
    WriteKept: "WRITE stands on its array",
    PlainNameTaken: "a plain name replaces a SHIFT by 0",
    ShiftOfConstant: "SHIFT of nothing",
    ShiftOfOne: "SHIFT of one",
    ShiftOfCompound: "SHIFT of a compound",
    SumLeftConstant: "SUM, a constant",
    SumRightConstant: "SUM, b constant",
    SumInOrder: "SUM opened, order kept",
    SumSwapped: "SUM opened, order swapped",
    DiffEqualBases: "DIFF of equal bases",
    DiffRightConstant: "DIFF, b constant",
    DiffLeftConstant: "DIFF, a constant",
    DiffOpened: "DIFF opened",
    DiffOpenedEqual: "DIFF opened to x and x",
    OpenedCompound: "a compound operand opened",
    NegOfNothing: "NEG of nothing",
    NegOfOne: "NEG of one",
    NegOfNegative: "NEG of a negative",
    NegOfDifference: "NEG of a difference",
    NegOfSum: "NEG of a sum",
    ApartByBase: "apart by equal bases",
    ApartByRange: "apart by ranges alone, each of one piece",
    ApartByPieces: "apart by ranges alone, one of two pieces",
    RangeSumPlain: "sum of pieces below 2^w",
    RangeSumWraps: "sum of pieces wholly wrapped",
    RangeSumStraddles: "sum of pieces straddling 2^w",
    RangeNegatedZero: "piece 0..0 negated",
    RangeNegatedPositive: "piece above 0 negated",
    RangeNegatedFromZero: "piece from 0 negated",
    RangePiecesOverlap: "pieces of a union overlap",
    RangePiecesTouch: "pieces of a union touch",
    RangeOfTwoPieces: "union of two pieces",
    NameSeenAgain: "VAR of a name seen before, its first a VAR",
    NameSeenAgainOverOther: "VAR of a name seen before, its first kept as other",
    LedBackByName: "row leads back by a name",
    LedBackBefore: "row leads back before the edit alone",
    LedBackAfter: "row leads back after the edit alone",
    KeptMalformed: "kept result refused as a table, but not for 18",
    KeptOtherBounds: "kept result refused as a table, for 18",
    KeptOtherHeader: "kept result with another header",
    KeptOtherSort: "kept result with a row of the other sort",
    SourceTaken: "touched row gives up a number that was not its own",
    SourceStays: "untouched row keeps a number that is not its own",
}

pub trait Watch {
    fn saw(&mut self, event: Event);
}

impl Watch for () {
    fn saw(&mut self, _: Event) {}
}
