//! The product's answers against the meaning over subsets: no regions, no
//! rule, no emission stand between.

use outside::claims::{any_quantifiers, joined_claim, pure_claim, set_quantifiers};
use outside::counting;
use outside::meaning::{self, Ranges};
use outside::random::Random;
use outside::rule::admit;
use outside::table::Claim;
use outside::text::spaced;

use super::calls;
use super::tally::Tally;
use crate::engine;

/// Outcome words of a row.
const TRUE: u64 = 1;
const FALSE: u64 = 2;

/// Emissions and decisions of claims about sets alone.
pub fn of_sets(tally: &mut Tally) {
    let mut random = Random::new(21);
    for _ in 0..3_000 {
        let sets = random.below(4);
        let quantifiers = set_quantifiers(&mut random, sets);
        let words = joined_claim(&mut random, &quantifiers, 4);
        for size in 0..=4 {
            compare_both(tally, &words, size);
        }
    }
    // More sets, at sizes where all subsets can still be tried.
    for _ in 0..500 {
        let sets = 4 + random.below(3);
        let quantifiers = set_quantifiers(&mut random, sets);
        let words = joined_claim(&mut random, &quantifiers, 4);
        for size in 0..=2 {
            compare_both(tally, &words, size);
        }
    }
}

/// The truth over subsets against the product's emission and decision.
fn compare_both(tally: &mut Tally, words: &[i32], size: u32) {
    let claim = Claim::read(words);
    let input = || format!("truth at size {size} of words: {}", spaced(words));
    let expected = meaning::truth(&claim, size, Ranges::around(size, 0));
    let row = engine::decide(words, size, u64::MAX);
    assert!(admit(words, size).is_ok(), "small words keep the bounds");
    tally.compare(&(if expected { TRUE } else { FALSE }), &row[0], input);
    // Emissions of many sets have too many counts to be searched here.
    if claim.sets() <= 3 {
        let Some(emission) = calls::reduce(tally, words) else {
            unreachable!("the claim is accepted");
        };
        let found = counting::truth(&Claim::read(&emission), size, Ranges::around(size, 0));
        tally.compare(&expected, &found, input);
    }
}

/// Emissions of claims with integer and count quantifiers among the sets.
/// Numbers are limited to the same ranges on both sides, a little past N:
/// that also shows that region counts over N change nothing.
pub fn of_mixed(tally: &mut Tally) {
    let mut random = Random::new(22);
    for _ in 0..3_000 {
        let (sets, others) = (random.below(3), 1 + random.below(2));
        let quantifiers = any_quantifiers(&mut random, sets, others);
        let words = joined_claim(&mut random, &quantifiers, 4);
        let Some(emission) = calls::reduce(tally, &words) else {
            unreachable!("the claim is accepted");
        };
        for size in 0..=2 {
            same_truth(tally, &words, &emission, size, Ranges::around(size, 2));
        }
    }
}

/// A claim by trying subsets, and its emission by trying counts.
pub fn same_truth(tally: &mut Tally, words: &[i32], emission: &[i32], size: u32, ranges: Ranges) {
    let expected = meaning::truth(&Claim::read(words), size, ranges);
    let found = counting::truth(&Claim::read(emission), size, ranges);
    tally.compare(&expected, &found, || {
        format!("truth at size {size} over {ranges:?} of words: {}", spaced(words))
    });
}

/// A claim without number terms or comparisons does not change its truth
/// from size 2^S on.
pub fn of_pure_claims(tally: &mut Tally) {
    let mut random = Random::new(23);
    for _ in 0..2_000 {
        let sets = random.below(4);
        let words = pure_claim(&mut random, sets, 5);
        let enough = 1u32 << sets;
        let at_enough = engine::decide(&words, enough, 1_000_000)[0];
        for size in [enough + 1, enough + 2] {
            let found = engine::decide(&words, size, 1_000_000)[0];
            tally.compare(&at_enough, &found, || {
                format!("truth at sizes {enough} and {size} of words: {}", spaced(&words))
            });
        }
    }
}
