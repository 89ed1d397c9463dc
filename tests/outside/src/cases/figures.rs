//! Figure 6 of source document 003 as a table, its emission against figure
//! 11, and both against the meaning over subsets.

use outside::counting;
use outside::figure::{figure_11, figure_11_body, figure_6, Constants, PRINTED};
use outside::meaning::{self, Ranges};
use outside::rule::Outcome;
use outside::table::{Claim, Refusal};
use outside::text::spaced;

use super::calls;
use super::tally::Tally;

/// Nodes of the constraint part: 6 x (8 - 1), and one per for-all set.
const CONSTRAINT_NODES: usize = 6 * 7 + 3;
/// Where the eight final regions' counts start among the emitted
/// quantifiers (2 and 4 come before), and where the integers do.
const FIRST_REGION: usize = 2 + 4;
const SIZE: usize = FIRST_REGION + 8;

pub fn run(tally: &mut Tally) {
    let words = figure_6(PRINTED);
    calls::check(tally, &words);
    // The first integer quantifier is the fourth of the quantifiers.
    let nodes = Claim::read(&words).nodes.len() as u64;
    let refusal = Refusal { number: 10, place: 3 * nodes + 3 };
    for size in [0, 3, 4096] {
        calls::decided(tally, &words, size, 1_000, Outcome::Refused(refusal));
    }
    for constants in variants() {
        let words = figure_6(constants);
        let Some(emission) = calls::reduce(tally, &words) else {
            unreachable!("figure 6 is accepted");
        };
        bodies(tally, constants, &Claim::read(&emission));
        truths(tally, constants, &words, &Claim::read(&emission));
    }
}

/// The printed figure, and neighbours of it that are false at some sizes.
fn variants() -> Vec<Constants> {
    let mut all = vec![PRINTED];
    for element in 0..=2 {
        for common in 0..=1 {
            for added in 0..=2 {
                for floor in [-1, 0, 1] {
                    let constants = Constants { element, common, added, floor };
                    if constants != PRINTED {
                        all.push(constants);
                    }
                }
            }
        }
    }
    all
}

/// The emitted body and figure 11's body agree under any counts and
/// integers, also such as break the constraints.
fn bodies(tally: &mut Tally, constants: Constants, emission: &Claim) {
    let body = emission.nodes.len() - CONSTRAINT_NODES - 1;
    for combination in 0..1 << 8 {
        let l: [i128; 8] = std::array::from_fn(|region| combination >> region & 1);
        for size in -1..=3 {
            for new_size in -1..=4 {
                let mut variables = vec![0; SIZE + 2];
                variables[FIRST_REGION..SIZE].copy_from_slice(&l);
                variables[SIZE..].copy_from_slice(&[size, new_size]);
                let expected = figure_11_body(constants, &l, size, new_size);
                let found = counting::value(emission, 0, &variables, body) == 1;
                tally.compare(&expected, &found, || {
                    format!("body of figure 6 {constants:?}, counts {l:?}, {size}, {new_size}")
                });
            }
        }
    }
}

/// Both figures and the emission agree at small sizes. A size outside 0 to
/// N, and a size' other than size + added, falsify the premise: the range
/// of integers taken here leaves nothing out.
fn truths(tally: &mut Tally, constants: Constants, words: &[i32], emission: &Claim) {
    let claim = Claim::read(words);
    for size in 0..=3 {
        let ranges = Ranges::around(size, 2);
        let integers = (ranges.first_integer, ranges.last_integer);
        let expected = meaning::truth(&claim, size, ranges);
        let input = || format!("size {size}, figure 6 {constants:?}: {}", spaced(words));
        let printed = figure_11(constants, i128::from(size), integers);
        tally.compare(&expected, &printed, input);
        tally.compare(&expected, &counting::truth(emission, size, ranges), input);
        if constants == PRINTED {
            tally.compare(&true, &expected, input);
        }
    }
}
