//! Random claims that pass the checker.

use crate::draft::Draft;
use crate::random::Random;
use crate::table::over_sets;

/// How large the free words of a claim get.
#[derive(Clone, Copy, PartialEq, Eq)]
pub enum Words {
    Small,
    Extreme,
}

/// Kinds with their weights: how often each is tried when it is possible.
const SET_KINDS: [(i32, usize); 6] = [(1, 6), (2, 1), (3, 1), (4, 3), (5, 3), (6, 2)];
const TERM_KINDS: [(i32, usize); 7] =
    [(10, 4), (11, 2), (12, 1), (13, 2), (14, 2), (15, 2), (16, 6)];
const ATOM_KINDS: [(i32, usize); 5] = [(20, 3), (21, 3), (22, 2), (23, 2), (24, 2)];
const JOIN_KINDS: [(i32, usize); 3] = [(25, 3), (26, 3), (27, 2)];

/// Words at which arithmetic or limits may turn.
pub const EXTREMES: [i32; 14] = [
    i32::MIN,
    i32::MIN + 1,
    -1_000_000_001,
    -1_000_000_000,
    -65_536,
    -1,
    0,
    244_140,
    244_141,
    500_000_000,
    999_999_999,
    1_000_000_000,
    1_000_000_001,
    i32::MAX,
];

/// Set quantifiers only, as the decider takes them.
pub fn set_quantifiers(random: &mut Random, sets: usize) -> Vec<i32> {
    (0..sets).map(|_| random.between(3, 4)).collect()
}

/// So many set quantifiers among so many others, in any order.
pub fn any_quantifiers(random: &mut Random, sets: usize, others: usize) -> Vec<i32> {
    let mut words = set_quantifiers(random, sets);
    for _ in 0..others {
        let at = random.below(words.len() + 1);
        words.insert(at, random.pick(&[1, 2, 5, 6]));
    }
    words
}

/// A claim of exactly so many nodes (2 or more), with sharing and unused
/// nodes, rooted at any of its formulas.
pub fn any_claim(random: &mut Random, quantifiers: &[i32], nodes: usize, words: Words) -> Vec<i32> {
    assert!(nodes >= 2, "a formula needs a child");
    let mut draft = Draft::new(quantifiers);
    while (draft.nodes() as usize) < nodes {
        let last = draft.nodes() as usize + 1 == nodes;
        if last && draft.formulas.is_empty() {
            put_one_of(random, &mut draft, &ATOM_KINDS, words);
            continue;
        }
        let kinds: &[(i32, usize)] = match random.below(10) {
            0..=2 => &SET_KINDS,
            3..=5 => &TERM_KINDS,
            6..=7 => &ATOM_KINDS,
            _ => &JOIN_KINDS,
        };
        put_one_of(random, &mut draft, kinds, words);
    }
    let root = pick_child(random, &draft.formulas);
    draft.rooted(root)
}

/// A claim whose root depends on most of its nodes: variables, then set
/// expressions, terms and atoms, then everything joined.
pub fn joined_claim(random: &mut Random, quantifiers: &[i32], width: usize) -> Vec<i32> {
    let mut draft = Draft::new(quantifiers);
    for (number, &word) in quantifiers.iter().enumerate() {
        draft.put(if over_sets(word) { 1 } else { 10 }, number as i32, 0);
    }
    for (kinds, least) in [(&SET_KINDS[..], 0), (&TERM_KINDS[..], 2), (&ATOM_KINDS[..], 1)] {
        for _ in 0..least + random.below(width + 1) {
            put_one_of(random, &mut draft, kinds, Words::Small);
        }
    }
    // The two terms above make an atom possible: there is one by now.
    let atoms = draft.formulas.clone();
    let mut root = atoms[0];
    for &atom in &atoms[1..] {
        root = draft.put(random.between(25, 26), root, atom);
        if random.one_in(4) {
            root = draft.put(27, root, 0);
        }
    }
    draft.rooted(root)
}

/// A claim about sets alone: no node of kinds 10 to 16 and 20 to 22.
pub fn pure_claim(random: &mut Random, sets: usize, width: usize) -> Vec<i32> {
    let mut draft = Draft::new(&set_quantifiers(random, sets));
    for number in 0..sets {
        draft.put(1, number as i32, 0);
    }
    draft.put(random.between(2, 3), 0, 0);
    for _ in 0..random.below(width + 1) {
        put_one_of(random, &mut draft, &SET_KINDS, Words::Small);
    }
    for _ in 0..1 + random.below(width + 1) {
        put_one_of(random, &mut draft, &ATOM_KINDS[3..], Words::Small);
    }
    for _ in 0..random.below(2 * width + 1) {
        put_one_of(random, &mut draft, &JOIN_KINDS, Words::Small);
    }
    draft.rooted(*draft.formulas.last().expect("an atom was put"))
}

/// Puts a node of one of the kinds, if any of them is possible by now.
fn put_one_of(random: &mut Random, draft: &mut Draft, kinds: &[(i32, usize)], words: Words) {
    let mut choices = Vec::new();
    for &(kind, weight) in kinds {
        if is_possible(draft, kind) {
            choices.extend(vec![kind; weight]);
        }
    }
    if !choices.is_empty() {
        let kind = random.pick(&choices);
        put_kind(random, draft, kind, words);
    }
}

fn is_possible(draft: &Draft, kind: i32) -> bool {
    match kind {
        1 => draft.quantifiers.iter().any(|&word| over_sets(word)),
        10 => draft.quantifiers.iter().any(|&word| !over_sets(word)),
        4..=6 | 16 | 23 | 24 => !draft.sets.is_empty(),
        13..=15 | 20..=22 => !draft.terms.is_empty(),
        25..=27 => !draft.formulas.is_empty(),
        _ => true,
    }
}

fn put_kind(random: &mut Random, draft: &mut Draft, kind: i32, words: Words) {
    let children = match kind {
        4..=6 | 16 | 23 | 24 => draft.sets.clone(),
        13..=15 | 20..=22 => draft.terms.clone(),
        25..=27 => draft.formulas.clone(),
        _ => vec![],
    };
    let (a, b) = match kind {
        1 => (pick_quantifier(random, draft, over_sets), 0),
        10 => (pick_quantifier(random, draft, |word| !over_sets(word)), 0),
        11 => (free_word(random, words), 0),
        15 | 22 => (free_word(random, words), pick_child(random, &children)),
        6 | 16 | 27 => (pick_child(random, &children), 0),
        4 | 5 | 13 | 14 | 20 | 21 | 23..=26 => {
            (pick_child(random, &children), pick_child(random, &children))
        }
        _ => (0, 0),
    };
    draft.put(kind, a, b);
}

fn pick_quantifier(random: &mut Random, draft: &Draft, wanted: fn(i32) -> bool) -> i32 {
    let words = &draft.quantifiers;
    let numbers: Vec<usize> = (0..words.len()).filter(|&at| wanted(words[at])).collect();
    random.pick(&numbers) as i32
}

/// Half of the children are recent, which makes deep claims; the others are
/// any, which makes shared and unused nodes.
fn pick_child(random: &mut Random, children: &[i32]) -> i32 {
    let recent = children.len().saturating_sub(3);
    let from = if random.one_in(2) { &children[recent..] } else { children };
    random.pick(from)
}

fn free_word(random: &mut Random, words: Words) -> i32 {
    if words == Words::Extreme && random.one_in(3) {
        return random.pick(&EXTREMES);
    }
    if words == Words::Extreme && random.one_in(3) {
        return random.draw() as i32;
    }
    random.between(-3, 4)
}
