//! Random and damaged tables through the checker and the reducer.

use outside::claims::{any_claim, any_quantifiers, Words};
use outside::damage::{at_a_limit, damage};
use outside::random::Random;
use outside::table::check;

use super::calls;
use super::properties;
use super::tally::Tally;

/// How many tables were accepted (0) or refused by each number: a group
/// that never meets a refusal would say nothing about it.
struct Seen([u64; 8]);

impl Seen {
    fn note(&mut self, words: &[i32]) {
        let number = check(words).err().map_or(0, |refusal| refusal.number);
        self.0[number as usize] += 1;
    }

    fn print(&self) {
        let refused: Vec<String> =
            (1..=7).map(|number| format!("{number}: {}", self.0[number])).collect();
        println!("  tables accepted: {}; refused by {}", self.0[0], refused.join(", "));
    }
}

/// Any quantifiers of up to 8 sets, mostly few others.
fn random_quantifiers(random: &mut Random) -> Vec<i32> {
    // Seven and eight sets are rare: their emissions are four times as long.
    let sets = if random.one_in(20) { 7 + random.below(2) } else { random.below(7) };
    let others = if random.one_in(8) { random.below(25) } else { random.below(4) };
    any_quantifiers(random, sets, others)
}

fn random_table(random: &mut Random) -> Vec<i32> {
    let quantifiers = random_quantifiers(random);
    let nodes = 2 + random.below(38);
    let words = if random.one_in(3) { Words::Extreme } else { Words::Small };
    any_claim(random, &quantifiers, nodes, words)
}

/// Tables that are accepted.
pub fn accepted(tally: &mut Tally) {
    let mut random = Random::new(1);
    for _ in 0..60_000 {
        let words = random_table(&mut random);
        calls::check(tally, &words);
        if let Some(emission) = calls::reduce(tally, &words) {
            properties::of_emission(tally, &words, &emission);
        }
    }
}

/// Tables damaged once to four times: several damages at once show in which
/// order the refusals are tested.
pub fn damaged(tally: &mut Tally) {
    let mut random = Random::new(2);
    let mut seen = Seen([0; 8]);
    for _ in 0..200_000 {
        let mut words = match random.below(12) {
            0..=3 => random_table(&mut random),
            4..=10 => small_table(&mut random, 3),
            _ => small_table(&mut random, 11),
        };
        for _ in 0..random.pick(&[1, 1, 1, 2, 2, 3, 4]) {
            damage(&mut random, &mut words);
        }
        seen.note(&words);
        calls::check(tally, &words);
        calls::reduce(tally, &words);
    }
    seen.print();
}

/// Few nodes, so that damage hits what matters; the sets may be too many.
fn small_table(random: &mut Random, sets: usize) -> Vec<i32> {
    let (sets, others) = (random.below(sets), random.below(3));
    let quantifiers = any_quantifiers(random, sets, others);
    let nodes = 2 + random.below(6);
    any_claim(random, &quantifiers, nodes, Words::Small)
}

/// Tables at the limits, whole and damaged.
pub fn at_limits(tally: &mut Tally) {
    let mut random = Random::new(3);
    let mut seen = Seen([0; 8]);
    for _ in 0..2_000 {
        let mut words = at_a_limit(&mut random);
        if random.one_in(3) {
            damage(&mut random, &mut words);
        }
        seen.note(&words);
        calls::check(tally, &words);
        calls::reduce(tally, &words);
    }
    seen.print();
}

/// Tables of up to 1,024 nodes.
pub fn large(tally: &mut Tally) {
    let mut random = Random::new(4);
    for _ in 0..1_000 {
        let quantifiers = random_quantifiers(&mut random);
        let nodes = 40 + random.below(985);
        let mut words = any_claim(&mut random, &quantifiers, nodes, Words::Extreme);
        if random.one_in(4) {
            damage(&mut random, &mut words);
        }
        calls::check(tally, &words);
        if let Some(emission) = calls::reduce(tally, &words) {
            properties::of_emission(tally, &words, &emission);
        }
    }
}
