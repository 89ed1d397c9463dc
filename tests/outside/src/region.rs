//! Regions, and the pattern of regions each set expression covers.
//!
//! Splitting region i by the next inner set gives 2i outside it and 2i + 1
//! inside it, so the outermost set is the highest bit of a final region.

use crate::table::{over_sets, Claim};

/// For each quantifier, how many set quantifiers stand outside it.
pub fn sets_outside(quantifiers: &[i32]) -> Vec<usize> {
    let mut outside = 0;
    let mut answer = Vec::new();
    for &word in quantifiers {
        answer.push(outside);
        outside += usize::from(over_sets(word));
    }
    answer
}

/// The regions that a set expression covers, rising.
#[derive(Clone, Default)]
pub struct Pattern(Vec<usize>);

impl Pattern {
    pub fn regions(&self) -> &[usize] {
        &self.0
    }

    /// Those that it covers and `other` does not.
    pub fn without(&self, other: &Pattern) -> Pattern {
        let left = |region: &&usize| other.0.binary_search(region).is_err();
        Pattern(self.0.iter().filter(left).copied().collect())
    }
}

/// The pattern of every node; nodes that are no sets cover nothing. Regions
/// are taken one by one, by membership, so that no table of constants is
/// needed that could be wrong.
pub fn patterns(claim: &Claim) -> Vec<Pattern> {
    let mut patterns = vec![Pattern::default(); claim.nodes.len()];
    for region in 0..1usize << claim.sets() {
        let covers = covering(claim, region);
        for (pattern, covered) in patterns.iter_mut().zip(covers) {
            if covered {
                pattern.0.push(region);
            }
        }
    }
    patterns
}

/// Which set nodes cover one region.
fn covering(claim: &Claim, region: usize) -> Vec<bool> {
    let sets = claim.sets();
    let outside = sets_outside(&claim.quantifiers);
    let mut covers: Vec<bool> = Vec::with_capacity(claim.nodes.len());
    for node in &claim.nodes {
        let (a, b) = (node.a as usize, node.b as usize);
        covers.push(match node.kind {
            1 => region >> (sets - 1 - outside[a]) & 1 == 1,
            3 => true,
            4 => covers[a] || covers[b],
            5 => covers[a] && covers[b],
            6 => !covers[a],
            _ => false,
        });
    }
    covers
}
