//! The functions here against each other, with no product involved: a test
//! that is wrong itself would prove nothing.

use outside::claims::{any_claim, any_quantifiers, joined_claim, set_quantifiers, Words};
use outside::counting;
use outside::emit;
use outside::meaning::{self, Ranges};
use outside::random::Random;
use outside::region::{patterns, Pattern};
use outside::rule::{self, Outcome};
use outside::scribble::dress;
use outside::table::{Claim, Node};
use outside::text::{self, spaced};

use super::tally::Tally;
use super::truth::same_truth;

/// Texts and the words they are, if they are words.
#[rustfmt::skip]
const KNOWN_TEXTS: [(&str, Option<&[i32]>); 21] = [
    ("", Some(&[])), (" \r\n", Some(&[])), ("1", Some(&[1])), (" 1\r\n-2 ", Some(&[1, -2])),
    ("007 -0 -00012", Some(&[7, 0, -12])), ("2147483647 -2147483648", Some(&[i32::MAX, i32::MIN])),
    ("0000000000000000000000000000000000000000000001", Some(&[1])), ("2147483648", None),
    ("-2147483649", None), ("+1", None), ("-", None), ("--1", None), ("1-2", None),
    ("1\t2", None), ("1.0", None), ("- 1", None), ("1\0", None), ("4294967297", None),
    ("99999999999999999999999999999999999999999999999", None), ("٣", None), ("1 x", None),
];

/// The rule, the emission and the meaning agree on claims about sets.
pub fn truths(tally: &mut Tally) {
    let mut random = Random::new(31);
    for _ in 0..2_000 {
        let sets = random.below(4);
        let quantifiers = set_quantifiers(&mut random, sets);
        let words = joined_claim(&mut random, &quantifiers, 4);
        let emission = emit::reduce(&words, usize::MAX).expect("the claim is accepted");
        for size in 0..=4 {
            let input = || format!("our truths at size {size} of words: {}", spaced(&words));
            let expected = meaning::truth(&Claim::read(&words), size, Ranges::around(size, 0));
            let ruled = match rule::decide(&words, size, u64::MAX) {
                Outcome::True(_) => Some(true),
                Outcome::False(_) => Some(false),
                _ => None,
            };
            tally.compare(&Some(expected), &ruled, input);
            // Counts past N must change nothing; see the counting module.
            for spare in 0..=1 {
                let ranges = Ranges::around(size, spare);
                let found = counting::truth(&Claim::read(&emission), size, ranges);
                tally.compare(&expected, &found, input);
            }
        }
    }
}

/// The pruned search agrees with trying everything, on counting claims that
/// are no emissions.
pub fn searches(tally: &mut Tally) {
    let mut random = Random::new(32);
    for _ in 0..4_000 {
        let others = random.below(4);
        let quantifiers = any_quantifiers(&mut random, 0, others);
        let words = joined_claim(&mut random, &quantifiers, 5);
        let emission = emit::reduce(&words, usize::MAX).expect("the claim is accepted");
        for size in 0..=3 {
            same_truth(tally, &words, &emission, size, Ranges::around(size, 1));
        }
    }
}

/// The number of emitted nodes, counted node by node from the scope: 2p - 1
/// for a cardinality over p regions, and so on, then the constraint part.
pub fn lengths(tally: &mut Tally) {
    let mut random = Random::new(34);
    for _ in 0..3_000 {
        let (sets, others) = (random.below(9), random.below(3));
        let quantifiers = any_quantifiers(&mut random, sets, others);
        let nodes = 2 + random.below(40);
        let words = any_claim(&mut random, &quantifiers, nodes, Words::Extreme);
        let claim = Claim::read(&words);
        let patterns = patterns(&claim);
        let sum = |p: &Pattern| 2 * p.regions().len().max(1) - 1;
        let run = |node: &Node| {
            let (a, b) = (node.a as usize, node.b as usize);
            match node.kind {
                1..=6 => 0,
                16 => sum(&patterns[a]),
                23 | 24 => {
                    let there = sum(&patterns[a].without(&patterns[b])) + 2;
                    let back = sum(&patterns[b].without(&patterns[a])) + 2;
                    if node.kind == 24 {
                        there
                    } else {
                        there + back + 1
                    }
                }
                _ => 1,
            }
        };
        let for_alls = quantifiers.iter().filter(|&&word| word == 4).count();
        let constraints = 6 * ((1 << sets) - 1) + for_alls;
        let expected = claim.nodes.iter().map(run).sum::<usize>() + constraints;
        let found = emit::reduce(&words, usize::MAX).map(|emitted| Claim::read(&emitted));
        tally.compare(&Ok(expected), &found.map(|emitted| emitted.nodes.len()), || {
            format!("our emission's nodes, of words: {}", spaced(&words))
        });
    }
}

/// Texts with answers known beforehand, and words that come back as written.
pub fn texts(tally: &mut Tally) {
    for (written, expected) in KNOWN_TEXTS {
        let found = text::read(written.as_bytes()).ok();
        let expected = expected.map(<[i32]>::to_vec);
        tally.compare(&expected, &found, || format!("our reading of text {written:?}"));
    }
    for (bytes, expected) in [(65_535, true), (65_536, false)] {
        let found = text::read(&vec![b' '; bytes]).is_ok();
        tally.compare(&expected, &found, || format!("our reading of {bytes} spaces"));
    }
    for (numbers, expected) in [(4_096, true), (4_097, false)] {
        let found = text::read("1 ".repeat(numbers).as_bytes()).is_ok();
        tally.compare(&expected, &found, || format!("our reading of {numbers} numbers"));
    }
    let mut random = Random::new(33);
    for _ in 0..2_000 {
        let words: Vec<i32> = (0..random.below(30)).map(|_| random.draw() as i32).collect();
        let dressed = dress(&mut random, &words);
        let found = text::read(&dressed);
        tally.compare(&Ok(words), &found, || format!("our reading of {}", dressed.escape_ascii()));
    }
}
