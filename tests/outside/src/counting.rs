//! The truth of a counting claim, such as an emission, at a small size.
//!
//! Counts are tried from 0 to a highest count that is at least N. For an
//! emission this is exact as far as its region counts go. Take the outermost
//! split: a count over N falsifies "parent equals sum", since the parent is
//! N and the other count is at least 0. A false constraint makes the whole
//! matrix false below an exists (and) and true below a for-all (not
//! constraint, or), whatever the inner counts are. So a count over N adds a
//! false to an exists and a true to a for-all, and changes neither. With the
//! outer constraint true every parent is at most N, and the same argument
//! holds for the next split, down to the innermost.
//!
//! The matrix is evaluated over intervals after each assignment, and inner
//! quantifiers are left out as soon as its truth is settled: they range over
//! something not empty, so a constant stays what it is. This follows the
//! constraints: a wrong count ends its branch at once.

use crate::meaning::Ranges;
use crate::rule::divides;
use crate::table::{is_for_all, Claim, Node};

/// What is known of a node: the least and greatest value. A formula is
/// between 0 and 1; it is settled when both are the same.
type Span = (i128, i128);

/// The truth of an accepted or emitted claim without set quantifiers and
/// without set nodes below its root.
pub fn truth(claim: &Claim, size: u32, ranges: Ranges) -> bool {
    assert!(ranges.highest_count >= i128::from(size));
    let reachable = claim.reachable();
    let needed = (0..claim.nodes.len()).filter(|&index| reachable[index]).collect();
    let variables = claim.quantifiers.iter().map(|&word| ends(ranges, word)).collect();
    let spans = vec![(0, 0); claim.nodes.len()];
    Search { claim, size, ranges, needed, variables, spans }.search(0)
}

/// The value of one node under a full assignment of the quantifiers.
pub fn value(claim: &Claim, size: u32, variables: &[i128], node: usize) -> i128 {
    let variables = variables.iter().map(|&value| (value, value)).collect();
    let needed = (0..=node).collect();
    let spans = vec![(0, 0); claim.nodes.len()];
    let ranges = Ranges::around(size, 0);
    let mut search = Search { claim, size, ranges, needed, variables, spans };
    search.evaluate_all();
    assert_eq!(search.spans[node].0, search.spans[node].1);
    search.spans[node].0
}

fn ends(ranges: Ranges, quantifier: i32) -> Span {
    let range = ranges.of(quantifier);
    (*range.start(), *range.end())
}

struct Search<'a> {
    claim: &'a Claim,
    size: u32,
    ranges: Ranges,
    needed: Vec<usize>,
    variables: Vec<Span>,
    spans: Vec<Span>,
}

impl Search<'_> {
    fn search(&mut self, quantifier: usize) -> bool {
        self.evaluate_all();
        let (least, greatest) = self.spans[self.claim.root as usize];
        if least == greatest {
            return least == 1;
        }
        // A full assignment settles everything, so a quantifier is left.
        let word = self.claim.quantifiers[quantifier];
        let stopping = !is_for_all(word);
        let mut answer = !stopping;
        for value in self.ranges.of(word) {
            self.variables[quantifier] = (value, value);
            if self.search(quantifier + 1) == stopping {
                answer = stopping;
                break;
            }
        }
        self.variables[quantifier] = ends(self.ranges, word);
        answer
    }

    fn evaluate_all(&mut self) {
        for place in 0..self.needed.len() {
            let index = self.needed[place];
            self.spans[index] = self.evaluate(self.claim.nodes[index]);
        }
    }

    fn evaluate(&self, node: Node) -> Span {
        let a = || self.spans[node.a as usize];
        let b = || self.spans[node.b as usize];
        let word = i128::from(node.a);
        match node.kind {
            10 => self.variables[node.a as usize],
            11 => (word, word),
            12 => (i128::from(self.size), i128::from(self.size)),
            13 => (a().0 + b().0, a().1 + b().1),
            14 => (a().0 - b().1, a().1 - b().0),
            15 => {
                let (one, other) = (word * b().0, word * b().1);
                (one.min(other), one.max(other))
            }
            20 => equal(a(), b()),
            21 => (i128::from(a().1 < b().0), i128::from(a().0 < b().1)),
            22 if b().0 == b().1 => settled(divides(word, b().0)),
            22 => (0, 1),
            25 => (a().0.min(b().0), a().1.min(b().1)),
            26 => (a().0.max(b().0), a().1.max(b().1)),
            27 => (1 - a().1, 1 - a().0),
            kind => unreachable!("a counting claim has no node of kind {kind}"),
        }
    }
}

fn settled(truth: bool) -> Span {
    (i128::from(truth), i128::from(truth))
}

fn equal(a: Span, b: Span) -> Span {
    if a.1 < b.0 || b.1 < a.0 {
        settled(false)
    } else if a.0 == a.1 && a == b {
        settled(true)
    } else {
        (0, 1)
    }
}
