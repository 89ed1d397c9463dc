//! Claims at the limits and one past them, with literal answers where the
//! scope gives them.

use outside::draft::Draft;
use outside::emit;
use outside::rule::Outcome;
use outside::table::{check, refuse, Refusal};
use outside::text::spaced;

use super::calls;
use super::examples::{HALVES, ONE_ELEMENT};
use super::tally::Tally;

/// A claim of so many nodes: constants and, last, an equality.
pub fn of_nodes(nodes: i32) -> Vec<i32> {
    let mut draft = Draft::new(&[]);
    for constant in 0..nodes - 1 {
        draft.put(11, constant, 0);
    }
    draft.put(20, 0, 0);
    draft.finished()
}

/// A claim with the given quantifiers: whole equals whole.
pub fn of_quantifiers(quantifiers: &[i32]) -> Vec<i32> {
    let mut draft = Draft::new(quantifiers);
    draft.put(3, 0, 0);
    draft.put(23, 0, 0);
    draft.finished()
}

/// A claim of one term built by `put`, compared with itself.
pub fn of_term(quantifiers: &[i32], put: impl FnOnce(&mut Draft) -> i32) -> Vec<i32> {
    let mut draft = Draft::new(quantifiers);
    let term = put(&mut draft);
    draft.put(20, term, term);
    draft.finished()
}

/// The claim with the largest emission for so many sets: 1,024 nodes, each
/// relation with all regions on one side and none on the other.
pub fn largest(sets: usize) -> Vec<i32> {
    let quantifiers = [4, 3, 4, 3, 4, 3, 4, 3];
    let mut draft = Draft::new(&quantifiers[..sets]);
    draft.put(3, 0, 0);
    draft.put(2, 0, 0);
    while draft.nodes() < 1024 {
        draft.put(23, 0, 1);
    }
    draft.finished()
}

pub fn run(tally: &mut Tally) {
    counts(tally);
    sets(tally);
    outputs(tally);
    for words in
        [of_nodes(1023), of_nodes(1024), of_nodes(1025), largest(6), largest(7), largest(8)]
    {
        calls::check(tally, &words);
        calls::reduce(tally, &words);
        for size in [0, 1, 4096, 4097] {
            calls::decide(tally, &words, size, 3);
        }
    }
    sizes(tally);
}

/// One refusal that is known, from the rule here and from the product.
fn refused(tally: &mut Tally, words: &[i32], number: u64, place: usize) {
    let expected = refuse(number, place).map(|()| 0);
    let found = check(words).map(|_| 0);
    tally.compare(&expected, &found, || format!("our check of words: {}", spaced(words)));
    calls::check(tally, words);
    calls::reduce(tally, words);
    calls::decide(tally, words, 1, 1);
}

fn accepted(tally: &mut Tally, words: &[i32]) {
    let found = check(words).is_ok();
    tally.compare(&true, &found, || format!("our check of words: {}", spaced(words)));
    calls::check(tally, words);
    calls::reduce(tally, words);
}

/// 1 to 1,024 nodes and 0 to 32 quantifiers.
fn counts(tally: &mut Tally) {
    accepted(tally, &of_nodes(1024));
    refused(tally, &of_nodes(1025), 2, 3 * 1025 + 1);
    refused(tally, &[0, 0, 0, 2005], 2, 1);
    refused(tally, &[0, 0, 33, 2005], 2, 1);
    refused(tally, &[0, 1, -1, 2005], 2, 2);
    refused(tally, &[0, -1, 0, 2005], 2, 1);
    refused(tally, &[0, i32::MAX, i32::MAX, 2005], 2, 1);
    refused(tally, &[0, i32::MIN, i32::MIN, 2005], 2, 1);
    refused(tally, &[0, 1024, 32, 2005], 3, 0);
    accepted(tally, &of_quantifiers(&[1; 32]));
    refused(tally, &of_quantifiers(&[1; 33]), 2, 6 + 33 + 2);
    for length in 0..4 {
        refused(tally, &vec![2005; length], 1, 0);
    }
    refused(tally, &[2005; 4], 2, 1);
    // Far longer than any table: places are counted in full.
    for (nodes, quantifiers, number, place) in
        [(0, 0, 2, 69_997), (1, 33, 2, 69_998), (1024, 32, 3, 0)]
    {
        let mut words = vec![0; 70_000];
        words[69_997..].copy_from_slice(&[nodes, quantifiers, 2005]);
        refused(tally, &words, number, place);
    }
}

/// Eight sets pass, a ninth is refused at its word, after any refusal 4.
fn sets(tally: &mut Tally) {
    accepted(tally, &of_quantifiers(&[3, 4, 3, 4, 3, 4]));
    accepted(tally, &of_quantifiers(&[3, 4, 3, 4, 3, 4, 3]));
    accepted(tally, &of_quantifiers(&[3, 4, 3, 4, 3, 4, 3, 4]));
    refused(tally, &of_quantifiers(&[3, 4, 3, 4, 3, 4, 3, 4, 3]), 5, 6 + 8);
    refused(tally, &of_quantifiers(&[1, 3, 4, 2, 3, 4, 5, 3, 4, 6, 4, 3, 1, 3, 3]), 5, 6 + 13);
    refused(tally, &of_quantifiers(&[3, 4, 3, 4, 3, 4, 3, 4, 3, 0]), 4, 6 + 9);
    refused(tally, &of_quantifiers(&[7, 4, 3, 4, 3, 4, 3, 3, 3, 3]), 4, 6);
    accepted(tally, &of_quantifiers(&[3, 4, 3, 1, 3, 4, 3, 5]));
}

/// Output slices: exact, and one word short.
fn outputs(tally: &mut Tally) {
    let mut needed = |words: &[i32], length: usize| {
        let input = || format!("our reduce of words: {}", spaced(words));
        let found = emit::reduce(words, length).map(|emitted| emitted.len());
        tally.compare(&Ok(length), &found, input);
        let found = emit::reduce(words, length - 1).map(|emitted| emitted.len());
        tally.compare(&refuse(8, length), &found, input);
        calls::reduce(tally, words);
    };
    needed(&ONE_ELEMENT, 33);
    // 1,022 set relations of 2R - 1 nodes for R regions, 1 for no region, 2
    // constants, 2 equals, an and: 2R + 5. Then the constraint part, with
    // one more for each for-all, and 2R - 2 quantifiers.
    for (sets, regions, for_alls) in [(6, 64, 3), (7, 128, 4), (8, 256, 4)] {
        let nodes = 1022 * (2 * regions + 5) + 6 * (regions - 1) + for_alls;
        needed(&largest(sets), 3 * nodes + 2 * regions - 2 + 4);
    }
}

/// Sizes around 4,096 and far past it.
fn sizes(tally: &mut Tally) {
    for size in [4095, 4096] {
        let steps = u64::from(size) + 1;
        calls::decided(tally, &HALVES, size, steps, Outcome::True(steps));
        calls::decided(tally, &HALVES, size, steps - 1, Outcome::Spent(steps - 1));
        calls::decided(tally, &HALVES, size, u64::MAX, Outcome::True(steps));
    }
    for size in [4097, 5000, 65_536, 65_537, 1 << 31, u32::MAX] {
        for allowance in [0, 1, u64::MAX] {
            let refusal = Refusal { number: 9, place: 0 };
            calls::decided(tally, &HALVES, size, allowance, Outcome::Refused(refusal));
        }
    }
    // Size before quantifiers before bounds, all after the table itself.
    let words = of_term(&[3, 1], |draft| draft.put(11, 1_000_000_001, 0));
    for (size, number, place) in [(4097, 9, 0), (4096, 10, 7)] {
        let refusal = Refusal { number, place };
        calls::decided(tally, &words, size, 0, Outcome::Refused(refusal));
    }
    calls::decide(tally, &ONE_ELEMENT[1..], 4097, 1);
}
