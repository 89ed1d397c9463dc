//! All tables of a few small shapes.

use outside::draft::Draft;
use outside::table::{over_sets, MARK};

use super::calls;
use super::tally::Tally;

/// All runs of up to 7 words over small alphabets.
pub fn short_runs(tally: &mut Tally) {
    let wide = [-2005, -1, 0, 1, 2, 3, 4, 11, 20, 2004, MARK, i32::MIN, i32::MAX];
    for length in 0..=4 {
        every_run(&vec![wide.to_vec(); length], |words| both(tally, words));
    }
    let narrow = vec![-1, 0, 1, 2, 3, 24];
    for length in 5..=7 {
        let mut choices = vec![narrow.clone(); length - 1];
        choices.push(vec![MARK, 0]);
        every_run(&choices, |words| both(tally, words));
    }
}

fn both(tally: &mut Tally, words: &[i32]) {
    calls::check(tally, words);
    calls::reduce(tally, words);
}

/// All runs with the given choices for each word.
fn every_run(choices: &[Vec<i32>], mut visit: impl FnMut(&[i32])) {
    let mut digits = vec![0; choices.len()];
    loop {
        let words: Vec<i32> = choices.iter().zip(&digits).map(|(from, &at)| from[at]).collect();
        visit(&words);
        // Counts up, the last word fastest.
        let Some(at) = (0..digits.len()).rev().find(|&at| digits[at] + 1 < choices[at].len())
        else {
            return;
        };
        digits[at] += 1;
        digits[at + 1..].fill(0);
    }
}

/// All one-node tables with no or one quantifier, fields from -2 to 2.
pub fn one_node(tally: &mut Tally) {
    let field: Vec<i32> = (-2..=2).collect();
    let node = [(-1..=29).collect(), field.clone(), field.clone()];
    let trailer = |quantifiers: i32| vec![field.clone(), vec![1], vec![quantifiers], vec![MARK]];
    every_run(&[&node[..], &trailer(0)].concat(), |words| both(tally, words));
    let quantifier = vec![(-1..=8).collect()];
    every_run(&[&node[..], &quantifier, &trailer(1)].concat(), |words| both(tally, words));
}

/// All two-node tables with one quantifier, fields from -1 to 2. Those that
/// are accepted go through the reducer and the decider too.
pub fn two_nodes(tally: &mut Tally) {
    let field: Vec<i32> = (-1..=2).collect();
    let node = [(0..=28).collect(), field.clone(), field.clone()];
    let end = [(0..=7).collect(), field.clone(), vec![2], vec![1], vec![MARK]];
    every_run(&[&node[..], &node[..], &end[..]].concat(), |words| {
        calls::check(tally, words);
        if outside::table::check(words).is_ok() {
            calls::reduce(tally, words);
            small_sizes(tally, words);
        }
    });
}

fn small_sizes(tally: &mut Tally, words: &[i32]) {
    for size in 0..=3 {
        calls::decide(tally, words, size, 1_000);
    }
}

/// All tables without refusals 1 to 6 of three nodes and up to two
/// quantifiers, and of four nodes and one or no quantifier, with a few free
/// words and any root.
pub fn well_sorted(tally: &mut Tally) {
    let mut visit = |draft: &Draft| {
        for root in 0..draft.nodes() {
            let words = draft.rooted(root);
            calls::check(tally, &words);
            // A root that is no formula shows nothing new below.
            if draft.formulas.contains(&root) {
                calls::reduce(tally, &words);
                small_sizes(tally, &words);
            }
        }
    };
    every_draft(Draft::new(&[]), 4, &mut visit);
    for outer in 1..=6 {
        every_draft(Draft::new(&[outer]), if over_sets(outer) { 4 } else { 3 }, &mut visit);
        for inner in 1..=6 {
            every_draft(Draft::new(&[outer, inner]), 3, &mut visit);
        }
    }
}

fn every_draft(draft: Draft, nodes: usize, visit: &mut impl FnMut(&Draft)) {
    if nodes == 0 {
        return visit(&draft);
    }
    for (kind, a, b) in next_nodes(&draft) {
        let mut longer = draft.clone();
        longer.put(kind, a, b);
        every_draft(longer, nodes - 1, visit);
    }
}

/// Every node that may come next, free words from a few.
fn next_nodes(draft: &Draft) -> Vec<(i32, i32, i32)> {
    let free = [-2, 0, 1];
    let mut nodes = vec![(2, 0, 0), (3, 0, 0), (12, 0, 0)];
    for (at, &word) in draft.quantifiers.iter().enumerate() {
        nodes.push((if over_sets(word) { 1 } else { 10 }, at as i32, 0));
    }
    for word in free {
        nodes.push((11, word, 0));
        for &term in &draft.terms {
            nodes.extend([(15, word, term), (22, word, term)]);
        }
    }
    for &a in &draft.sets {
        nodes.extend([(6, a, 0), (16, a, 0)]);
    }
    nodes.extend(draft.formulas.iter().map(|&a| (27, a, 0)));
    nodes.extend(pairs(&[4, 5, 23, 24], &draft.sets));
    nodes.extend(pairs(&[13, 14, 20, 21], &draft.terms));
    nodes.extend(pairs(&[25, 26], &draft.formulas));
    nodes
}

fn pairs(kinds: &[i32], children: &[i32]) -> Vec<(i32, i32, i32)> {
    let mut nodes = Vec::new();
    for &kind in kinds {
        for &a in children {
            nodes.extend(children.iter().map(|&b| (kind, a, b)));
        }
    }
    nodes
}
