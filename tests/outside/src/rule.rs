//! The decider's rule: refusals 1 to 7, 9, 10 and 11, then truth and steps
//! within an allowance.

use crate::region::{patterns, Pattern};
use crate::table::{check, is_for_all, over_sets, refuse, sort, Claim, Node, Refusal, Sort};

pub const SIZE_LIMIT: u32 = 4096;
pub const BOUND_LIMIT: i128 = 1_000_000_000;

/// What the decider answers.
#[derive(Clone, Copy, Debug, PartialEq, Eq)]
pub enum Outcome {
    Refused(Refusal),
    True(u64),
    False(u64),
    Spent(u64),
}

/// The decider's answer for a claim at a size with an allowance of steps.
/// A refusal stands before any spending, even of an allowance of 0.
pub fn decide(words: &[i32], size: u32, allowance: u64) -> Outcome {
    if let Err(refusal) = admit(words, size) {
        return Outcome::Refused(refusal);
    }
    let claim = Claim::read(words);
    let mut run = Run::new(&claim, size, allowance);
    match run.after_splits(0, &[u64::from(size)]) {
        // Spent means every step of the allowance was taken.
        None => Outcome::Spent(allowance),
        Some(true) => Outcome::True(run.steps),
        Some(false) => Outcome::False(run.steps),
    }
}

/// Everything that is tested before the first step.
pub fn admit(words: &[i32], size: u32) -> Result<(), Refusal> {
    check(words)?;
    let claim = Claim::read(words);
    if size > SIZE_LIMIT {
        return refuse(9, 0);
    }
    let numbers = |&word: &i32| !over_sets(word);
    if let Some(at) = claim.quantifiers.iter().position(numbers) {
        return refuse(10, 3 * claim.nodes.len() + at);
    }
    check_bounds(&claim, size)
}

/// Refusal 11, over all term nodes, used or not. The walk ends at the first
/// bound over the limit, so children are within it and no bound computed
/// here passes 2^31 times the limit: i128 is as good as unbounded.
fn check_bounds(claim: &Claim, size: u32) -> Result<(), Refusal> {
    let mut bounds: Vec<i128> = Vec::with_capacity(claim.nodes.len());
    for (index, node) in claim.nodes.iter().enumerate() {
        let bound = match node.kind {
            11 => i128::from(node.a).abs(),
            12 | 16 => i128::from(size),
            13 | 14 => bounds[node.a as usize] + bounds[node.b as usize],
            15 => i128::from(node.a).abs() * bounds[node.b as usize],
            _ => 0,
        };
        if bound > BOUND_LIMIT {
            return refuse(11, 3 * index);
        }
        bounds.push(bound);
    }
    Ok(())
}

/// "C divides T": the sign of C is ignored, and 0 divides nothing.
pub fn divides(divisor: i128, term: i128) -> bool {
    divisor != 0 && term % divisor.abs() == 0
}

/// One decision under way.
struct Run<'a> {
    claim: &'a Claim,
    size: u32,
    patterns: Vec<Pattern>,
    /// The nodes the matrix needs, in order; sets are in the patterns.
    needed: Vec<usize>,
    /// One value per node; formulas hold 0 or 1.
    values: Vec<i64>,
    left: u64,
    steps: u64,
}

impl<'a> Run<'a> {
    fn new(claim: &'a Claim, size: u32, allowance: u64) -> Self {
        let reachable = claim.reachable();
        let is_set = |index: usize| sort(claim.nodes[index].kind) == Some(Sort::Set);
        let needed =
            (0..claim.nodes.len()).filter(|&index| reachable[index] && !is_set(index)).collect();
        Run {
            claim,
            size,
            patterns: patterns(claim),
            needed,
            values: vec![0; claim.nodes.len()],
            left: allowance,
            steps: 0,
        }
    }

    /// Truth from the given quantifier inwards, None when spent.
    fn after_splits(&mut self, quantifier: usize, counts: &[u64]) -> Option<bool> {
        assert_eq!(counts.iter().sum::<u64>(), u64::from(self.size));
        if quantifier == self.claim.quantifiers.len() {
            return self.step(counts);
        }
        let mut children = Vec::with_capacity(2 * counts.len());
        self.split_region(quantifier, counts, &mut children)
    }

    /// Splits the next region, and by recursion all after it: the lowest
    /// region varies slowest. `children` holds the regions already split.
    fn split_region(
        &mut self,
        quantifier: usize,
        parents: &[u64],
        children: &mut Vec<u64>,
    ) -> Option<bool> {
        let Some(&parent) = parents.get(children.len() / 2) else {
            let counts = children.clone();
            return self.after_splits(quantifier + 1, &counts);
        };
        // Exists stops at the first true, for all at the first false.
        let stopping = !is_for_all(self.claim.quantifiers[quantifier]);
        for inside in 0..=parent {
            children.extend([parent - inside, inside]);
            let truth = self.split_region(quantifier, parents, children);
            children.truncate(children.len() - 2);
            if truth? == stopping {
                return Some(stopping);
            }
        }
        Some(!stopping)
    }

    /// One evaluation of the matrix, paid for first.
    fn step(&mut self, counts: &[u64]) -> Option<bool> {
        self.left = self.left.checked_sub(1)?;
        self.steps += 1;
        for place in 0..self.needed.len() {
            let index = self.needed[place];
            self.values[index] = self.evaluate(self.claim.nodes[index], counts);
        }
        Some(self.values[self.claim.root as usize] == 1)
    }

    /// The bounds keep every term within a thousand million: i64 is exact.
    fn evaluate(&self, node: Node, counts: &[u64]) -> i64 {
        let a = || self.values[node.a as usize];
        let b = || self.values[node.b as usize];
        let pattern = |word: i32| &self.patterns[word as usize];
        let ports = |pattern: &Pattern| pattern.regions().iter().map(|&r| counts[r]).sum::<u64>();
        let subset = |a: i32, b: i32| ports(&pattern(a).without(pattern(b))) == 0;
        match node.kind {
            11 => i64::from(node.a),
            12 => i64::from(self.size),
            13 => a() + b(),
            14 => a() - b(),
            15 => i64::from(node.a) * b(),
            16 => ports(pattern(node.a)) as i64,
            20 => i64::from(a() == b()),
            21 => i64::from(a() < b()),
            22 => i64::from(divides(i128::from(node.a), i128::from(b()))),
            23 => i64::from(subset(node.a, node.b) && subset(node.b, node.a)),
            24 => i64::from(subset(node.a, node.b)),
            25 => i64::from(a() == 1 && b() == 1),
            26 => i64::from(a() == 1 || b() == 1),
            27 => i64::from(a() == 0),
            _ => unreachable!("no number variable is left after refusal 10"),
        }
    }
}
