//! Ranges beside the sets of their members, all of them at small widths.

use super::{union, Piece, Range};
use crate::word::Width;
use std::collections::BTreeSet;

fn width(bits: u8) -> Width {
    Width::new(bits).expect("1 to 64")
}

fn two(low: [u64; 2], high: [u64; 2]) -> Range {
    let [first, second] = [low, high].map(|[low, high]| Piece { low, high });
    Range { first, second: Some(second) }
}

fn sum(one: Range, other: Range, bits: u8) -> Range {
    one.plus(other, width(bits), &mut ())
}

fn negation(range: Range, bits: u8) -> Range {
    range.negated(width(bits), &mut ())
}

#[test]
fn cases_of_the_request() {
    // P2, row 2.
    assert_eq!(sum(Range::of(0, 250), Range::only(248), 8), two([0, 242], [248, 255]));
    // P5.
    assert_eq!(sum(Range::of(0, 254), Range::only(1), 8), Range::of(1, 255));
    assert_eq!(sum(Range::of(0, 255), Range::only(1), 8), Range::of(0, 255));
    // P6.
    assert_eq!(sum(Range::only(255), Range::only(1), 8), Range::only(0));
    assert_eq!(sum(Range::of(254, 255), Range::only(1), 8), two([0, 0], [255, 255]));
    // P7.
    assert_eq!(negation(Range::only(0), 8), Range::only(0));
    assert_eq!(negation(Range::of(1, 5), 8), Range::of(251, 255));
    assert_eq!(negation(Range::of(0, 5), 8), two([0, 0], [251, 255]));
    // One full piece when they touch.
    assert_eq!(negation(Range::of(0, 255), 8), Range::of(0, 255));
    assert_eq!(negation(Range::of(0, 254), 8), two([0, 0], [2, 255]));
}

#[test]
fn whole_numbers_at_64_bits() {
    let most = u64::MAX;
    assert_eq!(sum(Range::of(most - 1, most), Range::only(1), 64), two([0, 0], [most, most]));
    assert_eq!(
        sum(Range::of(most - 9, most), Range::of(5, 12), 64),
        two([0, 11], [most - 4, most])
    );
    assert_eq!(sum(Range::of(1, most), Range::of(1, most), 64), Range::of(0, most));
    assert_eq!(sum(two([0, 3], [most, most]), Range::only(1), 64), Range::of(0, 4));
    assert_eq!(negation(Range::of(0, 1), 64), two([0, 0], [most, most]));
    assert_eq!(negation(Range::of(0, most), 64), Range::of(0, most));
}

#[test]
fn gaps_are_filled_smallest_first_and_lowest_of_equal_ones() {
    let of = |ends: &[[u64; 2]]| {
        let pieces = ends.iter().map(|[low, high]| Piece { low: *low, high: *high });
        union(pieces.collect(), &mut ())
    };
    assert_eq!(of(&[[0, 1], [4, 5], [9, 9]]), two([0, 5], [9, 9]));
    assert_eq!(of(&[[9, 9], [0, 1], [6, 7]]), two([0, 1], [6, 9]));
    assert_eq!(of(&[[0, 1], [4, 5], [8, 9]]), two([0, 5], [8, 9]));
    assert_eq!(of(&[[12, 13], [8, 9], [4, 5], [0, 1]]), two([0, 9], [12, 13]));
    assert_eq!(of(&[[0, 0], [6, 6], [8, 8], [11, 11], [17, 17]]), two([0, 11], [17, 17]));
    // Joined first: here no gap is left to fill but one.
    assert_eq!(of(&[[0, 1], [9, 9], [4, 5], [2, 3]]), two([0, 5], [9, 9]));
    assert_eq!(of(&[[0, 9], [3, 4], [5, 11]]), Range::of(0, 11));
    // The word does not wrap here: what lies below the first piece and above the last is no gap.
    assert_eq!(of(&[[1, 1], [5, 5], [254, 254]]), two([1, 5], [254, 254]));
}

/// A set of words of at most four bits, a bit for each.
type Set = u32;

fn size(bits: u8) -> u64 {
    1 << bits
}

fn members(range: Range) -> Set {
    let of = |piece: Piece| (piece.low..=piece.high).fold(0, |set, word| set | 1 << word);
    range.pieces().fold(0, |set, piece| set | of(piece))
}

fn words(set: Set, bits: u8) -> impl Iterator<Item = u64> {
    (0..size(bits)).filter(move |word| set >> word & 1 == 1)
}

/// Every range of one piece, and of two that do not touch.
fn all(bits: u8) -> Vec<Range> {
    let pieces = |from: u64| {
        (from..size(bits)).flat_map(move |low| (low..size(bits)).map(move |high| [low, high]))
    };
    let ones: Vec<Range> = pieces(0).map(|[low, high]| Range::of(low, high)).collect();
    let twos = pieces(0).flat_map(|low| pieces(low[1] + 2).map(move |high| two(low, high)));
    twos.chain(ones).collect()
}

/// A set's range: all from its least member to its greatest but the widest gap, of equal ones the
/// highest. That is what is left when gaps are filled, the smallest and lowest first.
fn covering(set: Set, bits: u8) -> Range {
    let words: Vec<u64> = words(set, bits).collect();
    let (least, greatest) = (words[0], words[words.len() - 1]);
    // Of equal ones this is the last.
    let widest = words.windows(2).max_by_key(|pair| pair[1] - pair[0]);
    match widest {
        Some(pair) if pair[1] - pair[0] > 1 => two([least, pair[0]], [pair[1], greatest]),
        _ => Range::of(least, greatest),
    }
}

fn sums(one: Set, other: Set, bits: u8) -> Set {
    let all = (1 << size(bits)) - 1;
    words(one, bits).fold(0, |set, word| {
        let moved = other << word;
        set | moved & all | moved >> size(bits)
    })
}

fn negations(set: Set, bits: u8) -> Set {
    words(set, bits).fold(0, |set, word| set | 1 << ((size(bits) - word) % size(bits)))
}

#[test]
fn sums_cover_all_sums_of_members() {
    for bits in 1..=4 {
        let all = all(bits);
        for one in &all {
            for other in &all {
                let (x, y) = (members(*one), members(*other));
                let expected = covering(sums(x, y, bits), bits);
                assert_eq!(sum(*one, *other, bits), expected, "{one} plus {other}, width {bits}");
            }
        }
    }
}

#[test]
fn negations_cover_all_negated_members() {
    for bits in 1..=4 {
        for range in all(bits) {
            let expected = covering(negations(members(range), bits), bits);
            assert_eq!(negation(range, bits), expected, "{range} negated, width {bits}");
        }
    }
}

#[test]
fn ranges_are_separate_when_they_share_no_number() {
    for bits in 1..=4 {
        let all = all(bits);
        for one in &all {
            for other in &all {
                let shared = members(*one) & members(*other) != 0;
                assert_eq!(one.shares_a_number(*other), shared, "{one} and {other}");
            }
        }
    }
}

/// The ranges that rows can have, from those of VARs on: each is one stretch of the words in a
/// circle, so sums and negations hold no word too many, and one in two pieces has 0 and 2^w - 1.
#[test]
fn no_gap_is_filled_in_ranges_of_rows() {
    for bits in 1..=4 {
        let mut known: Vec<Range> =
            all(bits).into_iter().filter(|range| range.second.is_none()).collect();
        let mut seen: BTreeSet<Set> = known.iter().map(|range| members(*range)).collect();
        let mut next = 0;
        while next < known.len() {
            let one = known[next];
            let negated = negation(one, bits);
            assert_eq!(members(negated), negations(members(one), bits), "{one} negated");
            let mut made = vec![negated];
            for other in &known[..=next] {
                let both = sum(one, *other, bits);
                let exact = sums(members(one), members(*other), bits);
                assert_eq!(members(both), exact, "{one} plus {other}, width {bits}");
                made.push(both);
            }
            known.extend(made.into_iter().filter(|range| seen.insert(members(*range))));
            next += 1;
        }
        let stretches = size(bits) * (size(bits) - 1) + 1;
        assert_eq!(known.len() as u64, stretches, "width {bits}");
        for range in known {
            if let Some(second) = range.second {
                assert!(range.first.low == 0 && second.high == size(bits) - 1, "{range}");
            }
        }
    }
}
