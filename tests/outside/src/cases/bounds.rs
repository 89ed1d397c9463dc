//! Refusal 11: bounds of terms around 1,000,000,000.

use outside::draft::Draft;
use outside::rule::Outcome;
use outside::table::Refusal;

use super::calls;
use super::limits::of_term;
use super::tally::Tally;

const LIMIT: i32 = 1_000_000_000;

/// A constant, and the place refused.
#[rustfmt::skip]
const CONSTANTS: [(i32, Option<u64>); 7] = [
    (LIMIT, None), (LIMIT + 1, Some(0)), (-LIMIT, None), (-LIMIT - 1, Some(0)),
    (i32::MIN, Some(0)), (i32::MAX, Some(0)), (0, None),
];

/// A factor, the size it multiplies, and the place refused.
#[rustfmt::skip]
const MULTIPLES: [(i32, u32, Option<u64>); 11] = [
    (244_140, 4096, None), (244_141, 4096, Some(3)), (-244_140, 4096, None),
    (-244_141, 4096, Some(3)), (i32::MIN, 0, None), (i32::MIN, 1, Some(3)), (LIMIT, 1, None),
    (LIMIT, 2, Some(3)), (LIMIT + 1, 1, Some(3)), (0, 4096, None), (i32::MAX, 4096, Some(3)),
];

/// A sum or difference of two constants, and the place refused.
#[rustfmt::skip]
const SUMS: [(i32, i32, i32, Option<u64>); 6] = [
    (13, LIMIT - 1, 1, None), (13, LIMIT, 1, Some(6)), (14, LIMIT, LIMIT, Some(6)),
    (14, 500_000_000, 500_000_000, None), (13, LIMIT, -1, Some(6)), (13, -LIMIT, 0, None),
];

pub fn run(tally: &mut Tally) {
    for (constant, place) in CONSTANTS {
        expect(tally, &of_term(&[], |draft| draft.put(11, constant, 0)), 0, place);
    }
    for (factor, size, place) in MULTIPLES {
        let term = |draft: &mut Draft| {
            let size = draft.put(12, 0, 0);
            draft.put(15, factor, size)
        };
        expect(tally, &of_term(&[], term), size, place);
        // A cardinality has the same bound, even of the empty set.
        let term = |draft: &mut Draft| {
            let empty = draft.put(2, 0, 0);
            let cardinality = draft.put(16, empty, 0);
            draft.put(15, factor, cardinality)
        };
        expect(tally, &of_term(&[], term), size, place.map(|place| place + 3));
    }
    for (kind, one, other, place) in SUMS {
        let term = |draft: &mut Draft| {
            let (one, other) = (draft.put(11, one, 0), draft.put(11, other, 0));
            draft.put(kind, one, other)
        };
        expect(tally, &of_term(&[], term), 4096, place);
    }
    chains(tally);
    unused(tally);
}

/// The claims here compare a term with itself: true, if not refused.
fn expect(tally: &mut Tally, words: &[i32], size: u32, place: Option<u64>) {
    let outcome = match place {
        Some(place) => Outcome::Refused(Refusal { number: 11, place }),
        None => Outcome::True(1),
    };
    calls::decided(tally, words, size, 9, outcome);
}

/// Bounds that double, cancel or multiply through many nodes: the value may
/// be small, the bound is not, and it passes any width of integer.
fn chains(tally: &mut Tally) {
    for (kind, factor) in [(13, 0), (14, 0), (15, 2), (15, -3), (15, i32::MIN), (15, i32::MAX)] {
        let mut draft = Draft::new(&[]);
        let first = draft.put(11, 1, 0);
        let mut term = first;
        while draft.nodes() < 1023 {
            let a = if kind == 15 { factor } else { term };
            term = draft.put(kind, a, term);
        }
        draft.put(20, first, first);
        calls::decide(tally, &draft.finished(), 1, 9);
        calls::reduce(tally, &draft.finished());
    }
}

/// Zero times a large bound is zero, but the large bound stands before, and
/// it stands whether or not the root depends on it.
fn unused(tally: &mut Tally) {
    let mut draft = Draft::new(&[]);
    let large = draft.put(11, LIMIT, 0);
    let none = draft.put(15, 0, large);
    let root = draft.put(20, none, none);
    expect(tally, &draft.finished(), 4096, None);
    let doubled = draft.put(13, large, large);
    draft.put(15, 0, doubled);
    expect(tally, &draft.rooted(root), 4096, Some(9));
}
