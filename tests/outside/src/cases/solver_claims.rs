//! The claims that the solvers are asked about, and their truth here.

use outside::claims::{any_quantifiers, joined_claim, pure_claim, set_quantifiers};
use outside::figure::{figure_6, PRINTED};
use outside::guard::guarded;
use outside::meaning::{self, Ranges};
use outside::random::Random;
use outside::rule::{self, Outcome};
use outside::table::{over_sets, Claim};
use outside::text;

use super::examples::{EVEN, HALVES, NOT_TRIVIAL, ONE_ELEMENT, WHOLE_IN_EMPTY};

/// How far number quantifiers pass the size, in claims that have some.
const SPARE: i32 = 2;
/// The largest size at which all subsets, and all numbers, are tried.
const SMALL: u32 = 4;
/// The largest size at which the rule is followed without an allowance.
const MIDDLE: u32 = 8;
/// Steps for a decision at a larger size.
pub const STEPS: u64 = 300_000;

const EXAMPLES: [&str; 5] = [
    include_str!("../../../../examples/at-most-three-silenced.claim"),
    include_str!("../../../../examples/every-mailed-port-alarms.claim"),
    include_str!("../../../../examples/false-at-small-sites.claim"),
    include_str!("../../../../examples/loose-cable.claim"),
    include_str!("../../../../examples/silenced-within-alarming.claim"),
];

/// Known claims, then random ones about sets alone and with numbers.
pub fn claims() -> Vec<Vec<i32>> {
    let read = |example: &str| text::read(example.as_bytes()).expect("an example is words");
    let mut claims: Vec<Vec<i32>> = EXAMPLES.map(read).to_vec();
    for words in [&ONE_ELEMENT[..], &NOT_TRIVIAL, &WHOLE_IN_EMPTY, &HALVES, &EVEN] {
        claims.push(words.to_vec());
    }
    claims.push(guarded(&figure_6(PRINTED), SPARE));
    let mut random = Random::new(51);
    for round in 0..320 {
        let sets = 1 + round % 3;
        claims.push(match round % 8 {
            0 => pure_claim(&mut random, sets, 4),
            _ => {
                let quantifiers = set_quantifiers(&mut random, sets);
                joined_claim(&mut random, &quantifiers, 3)
            }
        });
    }
    for round in 0..80 {
        let quantifiers = any_quantifiers(&mut random, round % 3, 1 + round % 2);
        claims.push(guarded(&joined_claim(&mut random, &quantifiers, 3), SPARE));
    }
    claims
}

/// Whether a claim quantifies over sets alone, as the decider takes it.
pub fn only_sets(words: &[i32]) -> bool {
    Claim::read(words).quantifiers.iter().all(|&word| over_sets(word))
}

/// The truth of a claim at a small size, by trying everything.
pub fn truth(words: &[i32], size: u32) -> bool {
    meaning::truth(&Claim::read(words), size, Ranges::around(size, i128::from(SPARE)))
}

/// The first size at which a claim is false, of those that are tried.
pub fn first_false(words: &[i32]) -> Option<u32> {
    let at_small = (0..=SMALL).find(|&size| !truth(words, size));
    match only_sets(words) {
        true => at_small.or_else(|| (SMALL + 1..=MIDDLE).find(|&size| is_false(words, size))),
        false => at_small,
    }
}

fn is_false(words: &[i32], size: u32) -> bool {
    matches!(rule::decide(words, size, u64::MAX), Outcome::False(_))
}

/// The truth at any size, unless it is out of reach here.
pub fn truth_in_reach(words: &[i32], size: u32) -> Option<bool> {
    if size <= SMALL {
        return Some(truth(words, size));
    }
    match rule::decide(words, size, STEPS) {
        Outcome::True(_) => Some(true),
        Outcome::False(_) => Some(false),
        Outcome::Spent(_) | Outcome::Refused(_) => None,
    }
}
