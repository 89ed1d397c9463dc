//! The small claims with known outcomes, given as literal answers, which
//! both the product and the rule here have to give.

use outside::meaning::{self, Ranges};
use outside::rule::{self, Outcome};
use outside::table::Claim;
use outside::text::{decide_prints, reduce_prints, spaced};
use outside::{emit, table};

use super::calls;
use super::tally::Tally;
use crate::engine::{self, Programs};

/// Exists y, |y| = 1.
pub const ONE_ELEMENT: [i32; 17] = [1, 0, 0, 16, 0, 0, 11, 1, 0, 20, 1, 2, 3, 3, 4, 1, 2005];
/// Exists x, not empty and not whole.
pub const NOT_TRIVIAL: [i32; 29] =
    [1, 0, 0, 2, 0, 0, 23, 0, 1, 27, 2, 0, 3, 0, 0, 23, 0, 4, 27, 5, 0, 25, 3, 6, 3, 7, 8, 1, 2005];
/// No quantifier, whole subset of empty.
pub const WHOLE_IN_EMPTY: [i32; 13] = [3, 0, 0, 2, 0, 0, 24, 0, 1, 2, 3, 0, 2005];
/// For all x, |x| + |complement of x| = MAXC.
pub const HALVES: [i32; 26] =
    [1, 0, 0, 16, 0, 0, 6, 0, 0, 16, 2, 0, 13, 1, 3, 12, 0, 0, 20, 4, 5, 4, 6, 7, 1, 2005];
/// For all x exists y, |x and y| = |x minus y|.
pub const EVEN: [i32; 30] = [
    1, 0, 0, 1, 1, 0, 5, 0, 1, 16, 2, 0, 6, 1, 0, 5, 0, 4, 16, 5, 0, 20, 3, 6, 4, 3, 7, 8, 2, 2005,
];

/// What `reduce` prints for the first claim.
const PRINTED: &str = "10 1 0
11 1 0
20 0 1
12 0 0
10 0 0
10 1 0
13 4 5
20 3 6
25 7 2
5 5
8 9 2 2005
";

/// For all x exists k exists y, (x subset of y or x = y) and not -3 divides
/// |whole|; other nodes unused. Its emission is written out below by hand:
/// regions 2 and 3 are inside x, 1 and 3 inside y.
#[rustfmt::skip]
const BY_HAND: [i32; 58] = [
    1, 0, 0,  1, 2, 0,  24, 0, 1,  23, 0, 1,  10, 1, 0,  3, 0, 0,  16, 5, 0,  22, -3, 6,
    15, 2, 4,  21, 8, 6,  26, 2, 3,  27, 7, 0,  25, 10, 11,  2, 0, 0,  16, 13, 0,
    14, 14, 4,  20, 15, 14,
    4, 1, 3,
    12, 17, 3, 2005,
];
#[rustfmt::skip]
const BY_HAND_EMITTED: [i32; 149] = [
    // x subset of y: region 2 is empty.
    10, 5, 0,  11, 0, 0,  20, 0, 1,
    // x = y: so are regions 2 and 1.
    10, 5, 0,  11, 0, 0,  20, 3, 4,  10, 4, 0,  11, 0, 0,  20, 6, 7,  25, 5, 8,
    // k, then |whole| over four regions.
    10, 2, 0,
    10, 3, 0,  10, 4, 0,  13, 11, 12,  10, 5, 0,  13, 13, 14,  10, 6, 0,  13, 15, 16,
    // -3 divides |whole|; 2 k; 2 k < |whole|; or; not; and.
    22, -3, 17,  15, 2, 10,  21, 19, 17,  26, 2, 9,  27, 18, 0,  25, 21, 22,
    // |empty|; |empty| - k; |empty| - k = |empty|.
    11, 0, 0,  14, 24, 10,  20, 25, 24,
    // The split by y: both regions of x, joined; exists.
    10, 0, 0,  10, 3, 0,  10, 4, 0,  13, 28, 29,  20, 27, 30,
    10, 1, 0,  10, 5, 0,  10, 6, 0,  13, 33, 34,  20, 32, 35,  25, 31, 36,
    25, 37, 23,
    // The split by x: the whole; for all.
    12, 0, 0,  10, 0, 0,  10, 1, 0,  13, 40, 41,  20, 39, 42,
    27, 43, 0,  26, 44, 38,
    // x becomes two counts, k stays, y becomes four.
    6, 6, 1, 5, 5, 5, 5,
    45, 46, 7, 2005,
];

/// "C divides T", as C, T and its truth: the sign of C is ignored, 0 divides
/// nothing, and the lowest word has the absolute value 2^31.
#[rustfmt::skip]
const DIVIDING: [(i32, i32, bool); 17] = [
    (0, 0, false), (0, 5, false), (0, -5, false), (1, 0, true), (-1, 7, true), (2, -4, true),
    (-2, 4, true), (-2, -4, true), (-2, -3, false), (2, -3, false), (3, 7, false),
    (7, 3, false), (i32::MIN, 0, true), (i32::MIN, 1_000_000_000, false), (i32::MAX, 0, true),
    (-1_000_000_000, 1_000_000_000, true), (1_000_000_000, -1_000_000_000, true),
];

/// The claims with their sizes and outcomes.
fn known() -> Vec<(&'static [i32], u32, Outcome)> {
    vec![
        (&ONE_ELEMENT, 0, Outcome::False(1)),
        (&ONE_ELEMENT, 1, Outcome::True(2)),
        (&ONE_ELEMENT, 3, Outcome::True(2)),
        (&NOT_TRIVIAL, 1, Outcome::False(2)),
        (&NOT_TRIVIAL, 2, Outcome::True(2)),
        (&WHOLE_IN_EMPTY, 0, Outcome::True(1)),
        (&WHOLE_IN_EMPTY, 1, Outcome::False(1)),
        (&HALVES, 5, Outcome::True(6)),
        (&EVEN, 0, Outcome::True(1)),
        (&EVEN, 1, Outcome::False(3)),
    ]
}

/// A claim that a constant divides a constant, with its outcome.
fn dividing((divisor, term, truth): (i32, i32, bool)) -> ([i32; 10], Outcome) {
    let words = [11, term, 0, 22, divisor, 0, 1, 2, 0, 2005];
    (words, if truth { Outcome::True(1) } else { Outcome::False(1) })
}

/// The product on the known claims, with allowances around their steps.
pub fn with_library(tally: &mut Tally) {
    for (words, size, outcome) in known() {
        calls::check(tally, words);
        calls::reduce(tally, words);
        let (Outcome::True(steps) | Outcome::False(steps)) = outcome else {
            unreachable!("every known outcome is true or false");
        };
        for allowance in [steps, steps + 1, u64::MAX] {
            calls::decided(tally, words, size, allowance, outcome);
        }
        for allowance in 0..steps {
            calls::decided(tally, words, size, allowance, Outcome::Spent(allowance));
        }
    }
    for (words, outcome) in DIVIDING.map(dividing) {
        calls::decided(tally, &words, 0, 1, outcome);
    }
    for (words, expected) in emitted() {
        let mut output = vec![0; expected.len()];
        engine::reduce(words, &mut output);
        tally.compare(&expected, &output, || format!("reduce of words: {}", spaced(words)));
    }
}

/// The claims with known emissions.
fn emitted() -> [(&'static [i32], Vec<i32>); 2] {
    [(&ONE_ELEMENT, printed_words()), (&BY_HAND, BY_HAND_EMITTED.to_vec())]
}

fn printed_words() -> Vec<i32> {
    let word = |word: &str| word.parse().expect("the printed emission is numbers");
    PRINTED.split_whitespace().map(word).collect()
}

/// The programs on the known claims and on empty input.
pub fn with_programs(tally: &mut Tally, programs: &Programs) {
    let mut expect = |program: &str, arguments: &[&str], words: &[i32], answer: &str| {
        let arguments: Vec<Vec<u8>> = arguments.iter().map(|a| a.as_bytes().to_vec()).collect();
        let text = spaced(words);
        let found = programs.run(program, &arguments, text.as_bytes());
        tally.compare(&Ok(answer.to_string()), &found, || {
            format!("{program} {arguments:?} of text {text:?}")
        });
    };
    expect("reduce", &[], &ONE_ELEMENT, PRINTED);
    expect("reduce", &[], &[], "refused 1 0\n");
    expect("decide", &["0", "0"], &[], "refused 1 0\n");
    for (words, size, outcome) in known() {
        let (name, steps) = match outcome {
            Outcome::True(steps) => ("true", steps),
            Outcome::False(steps) => ("false", steps),
            _ => unreachable!("every known outcome is true or false"),
        };
        let size = size.to_string();
        expect("decide", &[&size, "1000"], words, &format!("{name} {steps}\n"));
        let short = (steps - 1).to_string();
        expect("decide", &[&size, &short], words, &format!("spent {short}\n"));
    }
}

/// The rule and the printers here on the same claims: no product involved.
pub fn with_ourselves(tally: &mut Tally) {
    for (words, size, outcome) in known() {
        let input = || format!("our rule at size {size} of words: {}", spaced(words));
        tally.compare(&outcome, &rule::decide(words, size, u64::MAX), input);
        tally.compare(&true, &table::check(words).is_ok(), input);
    }
    for (words, outcome) in DIVIDING.map(dividing) {
        let input = || format!("our rule of words: {}", spaced(&words));
        tally.compare(&outcome, &rule::decide(&words, 0, 1), input);
        let truth = meaning::truth(&Claim::read(&words), 0, Ranges::around(0, 0));
        tally.compare(&matches!(outcome, Outcome::True(_)), &truth, input);
    }
    let text = spaced(&ONE_ELEMENT);
    let input = || format!("our text of words: {text}");
    tally.compare(PRINTED, &reduce_prints(text.as_bytes()), input);
    for (words, expected) in emitted() {
        let (exact, input) = (expected.len(), || format!("our reduce of words: {}", spaced(words)));
        tally.compare(&Ok(expected), &emit::reduce(words, exact), input);
        tally.compare(&table::refuse(8, exact), &emit::reduce(words, exact - 1), input);
    }
    tally.compare("refused 1 0\n", &reduce_prints(b""), || "our empty text".to_string());
    let arguments = [b"3".to_vec(), b"2".to_vec()];
    tally.compare("true 2\n", &decide_prints(&arguments, text.as_bytes()), input);
}
