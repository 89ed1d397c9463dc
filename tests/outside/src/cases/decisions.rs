//! The decider on random claims: outcomes, steps and allowances.

use outside::claims::{any_claim, any_quantifiers, joined_claim, set_quantifiers, Words};
use outside::damage::damage;
use outside::random::Random;
use outside::rule::{decide, Outcome};

use super::calls;
use super::tally::Tally;

/// Steps a single decision may take here.
const MANY: u64 = 20_000;

/// Claims about sets at sizes 0 to 5, with allowances around their steps.
pub fn small(tally: &mut Tally) {
    let mut random = Random::new(11);
    let mut totals = [0u64; 3];
    let mut long = 0;
    for round in 0..6_000 {
        // Most claims have few sets: more of them only take longer.
        let sets = if round % 10 == 0 { random.below(9) } else { random.below(4) };
        let quantifiers = set_quantifiers(&mut random, sets);
        let words = joined_claim(&mut random, &quantifiers, 5);
        for size in 0..=5 {
            let outcome = around_steps(tally, &words, size, MANY);
            let (kind, steps) = match outcome {
                Outcome::True(steps) => (0, steps),
                Outcome::False(steps) => (1, steps),
                _ => (2, 0),
            };
            totals[kind] += 1;
            long += u64::from(steps > 10);
        }
    }
    let [yes, no, other] = totals;
    println!("  claims true: {yes}, false: {no}, other: {other}; of over 10 steps: {long}");
}

/// Claims about seven and eight sets at sizes 0 to 2, to their ends.
pub fn many_sets(tally: &mut Tally) {
    let mut random = Random::new(15);
    for round in 0..300 {
        let quantifiers = set_quantifiers(&mut random, 7 + round % 2);
        let words = joined_claim(&mut random, &quantifiers, 5);
        for size in 0..=2 {
            around_steps(tally, &words, size, 40_000);
        }
    }
}

/// Compares under allowances at which the outcome turns.
fn around_steps(tally: &mut Tally, words: &[i32], size: u32, most: u64) -> Outcome {
    let outcome = decide(words, size, most);
    match outcome {
        Outcome::True(steps) | Outcome::False(steps) => {
            for allowance in [steps, steps + 1, u64::MAX] {
                calls::decided(tally, words, size, allowance, outcome);
            }
            // 0, 1 and one step short, each once and only if it is short.
            for allowance in (0..steps.min(2)).chain((2..steps).last()) {
                calls::decided(tally, words, size, allowance, Outcome::Spent(allowance));
            }
        }
        Outcome::Spent(_) => {
            for allowance in [0, 1, most] {
                calls::decided(tally, words, size, allowance, Outcome::Spent(allowance));
            }
        }
        Outcome::Refused(_) => {
            for allowance in [0, 1, u64::MAX] {
                calls::decided(tally, words, size, allowance, outcome);
            }
        }
    }
    outcome
}

/// Large sizes and words that reach the bound, under small allowances.
pub fn large(tally: &mut Tally) {
    let mut random = Random::new(12);
    let sizes = [6, 10, 63, 100, 1_000, 2_047, 4_095, 4_096, 4_097, 1 << 20, u32::MAX];
    for _ in 0..6_000 {
        let sets = random.below(9);
        let quantifiers = set_quantifiers(&mut random, sets);
        let words = if random.one_in(2) {
            joined_claim(&mut random, &quantifiers, 6)
        } else {
            let nodes = 2 + random.below(38);
            any_claim(&mut random, &quantifiers, nodes, Words::Extreme)
        };
        let size = random.pick(&sizes);
        around_steps(tally, &words, size, 2_000);
    }
}

/// Tables that are refused, by the checker's numbers or the decider's own.
pub fn refused(tally: &mut Tally) {
    let mut random = Random::new(13);
    let mut seen = [0u64; 13];
    for _ in 0..40_000 {
        let (sets, others) = (random.below(4), random.below(2));
        let quantifiers = any_quantifiers(&mut random, sets, others);
        let nodes = 2 + random.below(12);
        let mut words = any_claim(&mut random, &quantifiers, nodes, Words::Extreme);
        for _ in 0..random.below(3) {
            damage(&mut random, &mut words);
        }
        let size = random.pick(&[0, 1, 2, 4096, 4097, u32::MAX]);
        let allowance = random.pick(&[0, 1, 2, 50, 400]);
        if let Outcome::Refused(refusal) = calls::decide(tally, &words, size, allowance) {
            seen[refusal.number as usize] += 1;
        }
    }
    let seen: Vec<String> =
        [1, 2, 3, 4, 6, 7, 9, 10, 11].map(|number| format!("{number}: {}", seen[number])).into();
    println!("  refused by {}", seen.join(", "));
}

/// Allowances of every length up to the steps, for claims of many steps.
pub fn every_allowance(tally: &mut Tally) {
    let mut random = Random::new(14);
    let mut left = 300;
    while left > 0 {
        let sets = 1 + random.below(3);
        let quantifiers = set_quantifiers(&mut random, sets);
        let words = joined_claim(&mut random, &quantifiers, 5);
        let size = 1 + random.below(4) as u32;
        let outcome = decide(&words, size, 200);
        let (Outcome::True(steps @ 10..) | Outcome::False(steps @ 10..)) = outcome else {
            continue;
        };
        left -= 1;
        for allowance in 0..steps {
            calls::decided(tally, &words, size, allowance, Outcome::Spent(allowance));
        }
        calls::decided(tally, &words, size, steps, outcome);
    }
}
