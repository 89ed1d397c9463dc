//! Tables that are not quite right, in every way a refusal looks at.

use crate::claims::{any_claim, any_quantifiers, Words, EXTREMES};
use crate::random::Random;
use crate::table::{MARK, TRAILER};

/// Damages a table once. Whether the checker still takes it is left open:
/// a changed constant, for one, is no damage at all.
pub fn damage(random: &mut Random, words: &mut Vec<i32>) {
    match random.below(14) {
        0 => change_any(random, words),
        1 => drop(remove_any(random, words)),
        2 => insert_any(random, words),
        3 => set_any(random, words, |random| -random.between(1, 7)),
        4 => set_any(random, words, |random| random.pick(&EXTREMES)),
        5 => nudge_trailer(random, words),
        6 => cut_or_grow(random, words),
        7 => swap_any(random, words),
        8 => damage_quantifier(random, words),
        _ => damage_node(random, words),
    }
}

/// A word that could be about anything in a table.
fn stray_word(random: &mut Random) -> i32 {
    match random.below(6) {
        0 => random.pick(&EXTREMES),
        1 => random.draw() as i32,
        2 => random.pick(&[MARK, 1023, 1024, 1025, 32, 33, 2004]),
        _ => random.between(-2, 30),
    }
}

fn change_any(random: &mut Random, words: &mut [i32]) {
    set_any(random, words, stray_word);
}

fn set_any(random: &mut Random, words: &mut [i32], value: fn(&mut Random) -> i32) {
    if !words.is_empty() {
        let at = random.below(words.len());
        words[at] = value(random);
    }
}

fn remove_any(random: &mut Random, words: &mut Vec<i32>) -> Option<i32> {
    match words.len() {
        0 => None,
        length => Some(words.remove(random.below(length))),
    }
}

fn insert_any(random: &mut Random, words: &mut Vec<i32>) {
    let at = random.below(words.len() + 1);
    words.insert(at, stray_word(random));
}

fn swap_any(random: &mut Random, words: &mut [i32]) {
    if !words.is_empty() {
        let (one, other) = (random.below(words.len()), random.below(words.len()));
        words.swap(one, other);
    }
}

/// Root, counts and mark, mostly off by one, sometimes by anything.
fn nudge_trailer(random: &mut Random, words: &mut [i32]) {
    let length = words.len();
    if length < TRAILER {
        return;
    }
    let at = length - 1 - random.below(TRAILER);
    words[at] = match random.below(4) {
        0 => words[at].wrapping_add(1),
        1 => words[at].wrapping_sub(1),
        2 => words[at].wrapping_neg(),
        _ => stray_word(random),
    };
}

/// Words missing or added at either end, the trailer left as it was.
fn cut_or_grow(random: &mut Random, words: &mut Vec<i32>) {
    let many = 1 + random.below(4);
    match random.below(4) {
        0 => words.truncate(words.len().saturating_sub(many)),
        1 => drop(words.drain(..many.min(words.len()))),
        2 => words.extend(vec![0; many]),
        _ => drop(words.splice(0..0, vec![0; many])),
    }
}

/// Where the quantifier words are, if the trailer can be believed.
fn layout(words: &[i32]) -> Option<(usize, usize)> {
    let trailer = words.len().checked_sub(TRAILER)?;
    let nodes = usize::try_from(words[trailer + 1]).ok()?;
    let quantifiers = usize::try_from(words[trailer + 2]).ok()?;
    let fits = nodes <= 2000 && 3 * nodes + quantifiers == trailer;
    fits.then_some((nodes, quantifiers))
}

fn damage_quantifier(random: &mut Random, words: &mut [i32]) {
    if let Some((nodes, quantifiers @ 1..)) = layout(words) {
        let at = 3 * nodes + random.below(quantifiers);
        words[at] = random.pick(&[-1, 0, 1, 2, 3, 4, 5, 6, 7, i32::MAX, i32::MIN]);
    }
}

/// One field of one node: a wrong kind, a wrong child, an unused field used,
/// a quantifier of the other sort or past the end.
fn damage_node(random: &mut Random, words: &mut [i32]) {
    let Some((nodes @ 1.., quantifiers)) = layout(words) else {
        return;
    };
    let node = random.below(nodes);
    let at = 3 * node + random.below(3);
    words[at] = match random.below(8) {
        0 => random.between(-1, 29),
        1 => random.pick(&[7, 8, 9, 17, 18, 19, 28]),
        2 => node as i32,
        3 => node as i32 + random.between(-1, 1),
        4 => random.below(nodes) as i32,
        5 => quantifiers as i32 - random.between(0, 1),
        6 => random.between(-2, 2),
        _ => words[at].wrapping_add(random.pick(&[-1, 1])),
    };
}

/// A table that breaks a limit, sometimes, and otherwise stands just at it.
pub fn at_a_limit(random: &mut Random) -> Vec<i32> {
    let nodes = match random.below(3) {
        0 => 1022 + random.below(4),
        _ => 2 + random.below(20),
    };
    let sets = random.pick(&[0, 1, 6, 7, 8, 8, 9, 10]);
    let others = match random.below(3) {
        0 => (30 + random.below(5)) - sets,
        _ => random.below(4),
    };
    let quantifiers = any_quantifiers(random, sets, others);
    any_claim(random, &quantifiers, nodes, Words::Extreme)
}
