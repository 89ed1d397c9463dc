//! What the scope says of every emission besides its words: its size, its
//! alternations, and what happens when it is handed back.

use outside::table::{is_for_all, over_sets, sort, Claim, Sort, NODE_LIMIT, QUANTIFIER_LIMIT};
use outside::text::spaced;

use super::tally::Tally;
use crate::engine::{self, refused_row};

/// The properties of an emission that do not follow it word by word.
pub fn of_emission(tally: &mut Tally, words: &[i32], emission: &[i32]) {
    let (claim, emitted) = (Claim::read(words), Claim::read(emission));
    let input = || format!("emission of words: {}", spaced(words));
    let regions = 1usize << claim.sets();
    let most = claim.nodes.len() * (2 * regions + 5) + 6 * (regions - 1) + claim.sets();
    let within = emitted.nodes.len() <= most;
    let alternations = (alternations(&claim.quantifiers), alternations(&emitted.quantifiers));
    let set_free = claim.nodes.iter().all(|node| sort(node.kind) != Some(Sort::Set));
    let same = claim.sets() > 0 || !set_free || words == emission;
    let no_sets_left = emitted.quantifiers.iter().all(|&word| !over_sets(word))
        && emitted.nodes.iter().all(|node| !matches!(node.kind, 1..=6 | 16 | 23 | 24));
    tally.compare(
        &(true, alternations.0, true, true),
        &(within, alternations.1, same, no_sets_left),
        input,
    );
    handed_back(tally, words, emission, &emitted);
}

/// Adjacent quantifiers of which one is an exists, the other a for-all.
fn alternations(quantifiers: &[i32]) -> usize {
    quantifiers.windows(2).filter(|pair| is_for_all(pair[0]) != is_for_all(pair[1])).count()
}

/// An emission within the limits is accepted and comes out as it is; one
/// past them is refused by number 2.
fn handed_back(tally: &mut Tally, words: &[i32], emission: &[i32], emitted: &Claim) {
    let input = || format!("emission handed back, of words: {}", spaced(words));
    let mut output = vec![0; emission.len()];
    let row = engine::reduce(emission, &mut output);
    let place = if emitted.nodes.len() > NODE_LIMIT as usize {
        Some(emission.len() - 3)
    } else if emitted.quantifiers.len() > QUANTIFIER_LIMIT as usize {
        Some(emission.len() - 2)
    } else {
        None
    };
    match place {
        Some(place) => tally.compare(&refused_row(2, place), &row, input),
        None => tally.compare(&(1, emission), &(row[0], &output[..]), input),
    }
}
