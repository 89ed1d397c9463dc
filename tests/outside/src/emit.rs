//! The emission: a claim table turned into a counting claim, words to words,
//! and refusals 12 and 8.

use crate::region::{patterns, sets_outside, Pattern};
use crate::table::{check, is_for_all, over_sets, refuse, Claim, Node, Refusal, MARK};

/// The counting claim while it grows. Numbers are wider than words, so that
/// refusal 12 can be seen before anything is cut to a word.
struct Emission {
    nodes: Vec<[i64; 3]>,
    quantifiers: Vec<i32>,
    /// New number of each input quantifier; of a set, its first count.
    renewed: Vec<i64>,
    /// Per set quantifier, outermost first: its first count, and its kind.
    splits: Vec<(i64, i32)>,
}

/// The reducer's answer: the words written, or the refusal. `room` is the
/// length of the output slice.
pub fn reduce(words: &[i32], room: usize) -> Result<Vec<i32>, Refusal> {
    check(words)?;
    let claim = Claim::read(words);
    let mut emission = emit_quantifiers(&claim);
    let body = emission.emit_nodes(&claim);
    let root = emission.emit_splits(body);
    // Numbers count from 0. The input limits keep every emission far below
    // this; the test stands because the refusal table has it.
    let highest = emission.nodes.len().max(emission.quantifiers.len()) - 1;
    if highest > i32::MAX as usize {
        return refuse(12, 0);
    }
    let emitted = emission.words(root);
    if emitted.len() > room {
        return refuse(8, emitted.len());
    }
    Ok(emitted)
}

/// Quantifiers keep their order; a set with e sets outside it becomes
/// 2^(e+1) counts, one for each region after its split.
fn emit_quantifiers(claim: &Claim) -> Emission {
    let outside = sets_outside(&claim.quantifiers);
    let (mut quantifiers, mut renewed, mut splits) = (vec![], vec![], vec![]);
    for (&word, outside) in claim.quantifiers.iter().zip(outside) {
        let first = quantifiers.len() as i64;
        renewed.push(first);
        if over_sets(word) {
            splits.push((first, word));
            quantifiers.extend(vec![word + 2; 2 << outside]);
        } else {
            quantifiers.push(word);
        }
    }
    Emission { nodes: vec![], quantifiers, renewed, splits }
}

impl Emission {
    fn put(&mut self, kind: i64, a: i64, b: i64) -> i64 {
        self.nodes.push([kind, a, b]);
        self.nodes.len() as i64 - 1
    }

    /// The count of a region after the given number of splits; before any
    /// split the only region is MAXC itself.
    fn put_region(&mut self, splits: usize, region: i64) -> i64 {
        match splits {
            0 => self.put(12, 0, 0),
            _ => self.put(10, self.splits[splits - 1].0 + region, 0),
        }
    }

    /// The sum over a pattern's regions, rising.
    fn put_cardinality(&mut self, pattern: &Pattern) -> i64 {
        let splits = self.splits.len();
        let mut sum = None;
        for &region in pattern.regions() {
            let count = self.put_region(splits, region as i64);
            sum = Some(match sum {
                None => count,
                Some(so_far) => self.put(13, so_far, count),
            });
        }
        sum.unwrap_or_else(|| self.put(11, 0, 0))
    }

    fn put_is_empty(&mut self, pattern: &Pattern) -> i64 {
        let count = self.put_cardinality(pattern);
        let zero = self.put(11, 0, 0);
        self.put(20, count, zero)
    }

    /// Nodes in input order. Returns the node that stands for the root.
    fn emit_nodes(&mut self, claim: &Claim) -> i64 {
        let patterns = patterns(claim);
        // Which emitted node stands for each input node; sets have none, and
        // nothing but the kinds that look at patterns refers to sets.
        let mut stands: Vec<i64> = Vec::new();
        for node in &claim.nodes {
            let last = match node.kind {
                1..=6 => -1,
                16 => self.put_cardinality(&patterns[node.a as usize]),
                23 | 24 => {
                    let (a, b) = (&patterns[node.a as usize], &patterns[node.b as usize]);
                    self.put_set_relation(node.kind, a, b)
                }
                _ => self.put_renewed(node, &stands),
            };
            stands.push(last);
        }
        stands[claim.root as usize]
    }

    fn put_set_relation(&mut self, kind: i32, a: &Pattern, b: &Pattern) -> i64 {
        let subset = self.put_is_empty(&a.without(b));
        if kind == 24 {
            return subset;
        }
        let superset = self.put_is_empty(&b.without(a));
        self.put(25, subset, superset)
    }

    /// A node that stays one node, with renewed children and quantifiers.
    fn put_renewed(&mut self, node: &Node, stands: &[i64]) -> i64 {
        let child = |word: i32| stands[word as usize];
        let (a, b) = match node.kind {
            10 => (self.renewed[node.a as usize], 0),
            11 | 12 => (i64::from(node.a), 0),
            15 | 22 => (i64::from(node.a), child(node.b)),
            27 => (child(node.a), 0),
            _ => (child(node.a), child(node.b)),
        };
        self.put(i64::from(node.kind), a, b)
    }

    /// The constraints of all splits, innermost first. Returns the root.
    fn emit_splits(&mut self, mut body: i64) -> i64 {
        for split in (0..self.splits.len()).rev() {
            let constraint = self.put_constraint(split);
            body = if is_for_all(self.splits[split].1) {
                let not = self.put(27, constraint, 0);
                self.put(26, not, body)
            } else {
                self.put(25, constraint, body)
            };
        }
        body
    }

    /// Every parent region equals the sum of its two children.
    fn put_constraint(&mut self, split: usize) -> i64 {
        let mut joined = None;
        for parent in 0..1i64 << split {
            let whole = self.put_region(split, parent);
            let outside = self.put_region(split + 1, 2 * parent);
            let inside = self.put_region(split + 1, 2 * parent + 1);
            let sum = self.put(13, outside, inside);
            let equal = self.put(20, whole, sum);
            joined = Some(match joined {
                None => equal,
                Some(so_far) => self.put(25, so_far, equal),
            });
        }
        joined.expect("a split has at least one parent region")
    }

    fn words(&self, root: i64) -> Vec<i32> {
        let mut words: Vec<i32> = self.nodes.iter().flatten().map(|&word| word as i32).collect();
        words.extend(&self.quantifiers);
        words.extend([root as i32, self.nodes.len() as i32]);
        words.extend([self.quantifiers.len() as i32, MARK]);
        words
    }
}
