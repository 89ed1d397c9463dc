//! The claim table: what its words mean, and refusals 1 to 7.
//!
//! A claim is a run of words: three per node (kind, a, b), one per quantifier
//! (outermost first), then root, node count, quantifier count and the mark.

/// The word every claim table ends with.
pub const MARK: i32 = 2005;
/// Root, node count, quantifier count, mark.
pub const TRAILER: usize = 4;
pub const NODE_LIMIT: i32 = 1024;
pub const QUANTIFIER_LIMIT: i32 = 32;
pub const SET_LIMIT: usize = 8;

/// Why a claim is not taken, and where.
#[derive(Clone, Copy, Debug, PartialEq, Eq)]
pub struct Refusal {
    pub number: u64,
    pub place: u64,
}

/// A refusal ready to be returned.
pub fn refuse<T>(number: u64, place: usize) -> Result<T, Refusal> {
    let place = place as u64;
    Err(Refusal { number, place })
}

/// What the checker answers about an accepted table.
#[derive(Clone, Copy, Debug, PartialEq, Eq)]
pub struct Shape {
    pub nodes: usize,
    pub quantifiers: usize,
    pub sets: usize,
    pub root: usize,
}

/// One node of a claim.
#[derive(Clone, Copy, Debug, PartialEq, Eq)]
pub struct Node {
    pub kind: i32,
    pub a: i32,
    pub b: i32,
}

/// A table taken apart. Nothing but the lengths need be right.
#[derive(Clone, Debug)]
pub struct Claim {
    pub nodes: Vec<Node>,
    pub quantifiers: Vec<i32>,
    pub root: i32,
}

/// The three sorts of nodes.
#[derive(Clone, Copy, Debug, PartialEq, Eq)]
pub enum Sort {
    Set,
    Term,
    Formula,
}

/// What a field of a node has to be.
#[derive(Clone, Copy)]
enum Field {
    Unused,
    AnyWord,
    SetQuantifier,
    NumberQuantifier,
    Child(Sort),
}

/// The sort of a kind, if it is a kind at all.
pub fn sort(kind: i32) -> Option<Sort> {
    match kind {
        1..=6 => Some(Sort::Set),
        10..=16 => Some(Sort::Term),
        20..=27 => Some(Sort::Formula),
        _ => None,
    }
}

/// Whether a quantifier word ranges over sets.
pub fn over_sets(quantifier: i32) -> bool {
    quantifier == 3 || quantifier == 4
}

/// Whether a quantifier word is a for-all.
pub fn is_for_all(quantifier: i32) -> bool {
    matches!(quantifier, 2 | 4 | 6)
}

/// The sort table: what a and b are for each kind.
fn fields(kind: i32) -> Option<(Field, Field)> {
    use Field::*;
    let set = Child(Sort::Set);
    let term = Child(Sort::Term);
    let formula = Child(Sort::Formula);
    Some(match kind {
        1 => (SetQuantifier, Unused),
        2 | 3 | 12 => (Unused, Unused),
        4 | 5 | 23 | 24 => (set, set),
        6 | 16 => (set, Unused),
        10 => (NumberQuantifier, Unused),
        11 => (AnyWord, Unused),
        13 | 14 | 20 | 21 => (term, term),
        15 | 22 => (AnyWord, term),
        25 | 26 => (formula, formula),
        27 => (formula, Unused),
        _ => return None,
    })
}

impl Claim {
    /// Takes apart words whose trailer fits their number. Limits are not
    /// looked at: an emission past them can be read as well.
    pub fn read(words: &[i32]) -> Claim {
        let trailer = &words[words.len() - TRAILER..];
        let node_words = 3 * trailer[1] as usize;
        let quantifiers = words[node_words..words.len() - TRAILER].to_vec();
        assert_eq!(quantifiers.len(), trailer[2] as usize);
        let nodes = words[..node_words]
            .chunks(3)
            .map(|run| Node { kind: run[0], a: run[1], b: run[2] })
            .collect();
        Claim { nodes, quantifiers, root: trailer[0] }
    }

    /// The number of set quantifiers.
    pub fn sets(&self) -> usize {
        self.quantifiers.iter().filter(|&&word| over_sets(word)).count()
    }

    /// Marks the nodes the root depends on. The claim must be accepted.
    pub fn reachable(&self) -> Vec<bool> {
        let mut marked = vec![false; self.nodes.len()];
        marked[self.root as usize] = true;
        for index in (0..self.nodes.len()).rev() {
            let node = self.nodes[index];
            if let (true, Some((first, second))) = (marked[index], fields(node.kind)) {
                for (field, word) in [(first, node.a), (second, node.b)] {
                    if let Field::Child(_) = field {
                        marked[word as usize] = true;
                    }
                }
            }
        }
        marked
    }

    fn field_holds(&self, field: Field, word: i32, owner: usize) -> bool {
        let quantifier = || usize::try_from(word).ok().and_then(|at| self.quantifiers.get(at));
        match field {
            Field::Unused => word == 0,
            Field::AnyWord => true,
            Field::SetQuantifier => quantifier().is_some_and(|&kind| over_sets(kind)),
            Field::NumberQuantifier => quantifier().is_some_and(|&kind| !over_sets(kind)),
            // A child's number is smaller than its parent's.
            Field::Child(wanted) => usize::try_from(word)
                .is_ok_and(|child| child < owner && sort(self.nodes[child].kind) == Some(wanted)),
        }
    }

    fn node_holds(&self, index: usize) -> bool {
        let node = self.nodes[index];
        fields(node.kind).is_some_and(|(a, b)| {
            self.field_holds(a, node.a, index) && self.field_holds(b, node.b, index)
        })
    }
}

/// Refusals 4 and 5. All words are looked at for 4 before any for 5.
fn check_quantifiers(claim: &Claim) -> Result<usize, Refusal> {
    let first_word = 3 * claim.nodes.len();
    let words = &claim.quantifiers;
    if let Some(at) = words.iter().position(|word| !(1..=6).contains(word)) {
        return refuse(4, first_word + at);
    }
    let sets: Vec<usize> = (0..words.len()).filter(|&at| over_sets(words[at])).collect();
    match sets.get(SET_LIMIT) {
        Some(&seventh) => refuse(5, first_word + seventh),
        None => Ok(sets.len()),
    }
}

/// Refusals 1 to 7, in the order of their numbers.
pub fn check(words: &[i32]) -> Result<Shape, Refusal> {
    let length = words.len();
    if length < TRAILER || words[length - 1] != MARK {
        return refuse(1, 0);
    }
    let (nodes, quantifiers) = (words[length - 3], words[length - 2]);
    if !(1..=NODE_LIMIT).contains(&nodes) {
        return refuse(2, length - 3);
    }
    if !(0..=QUANTIFIER_LIMIT).contains(&quantifiers) {
        return refuse(2, length - 2);
    }
    let (nodes, quantifiers) = (nodes as usize, quantifiers as usize);
    if length != 3 * nodes + quantifiers + TRAILER {
        return refuse(3, 0);
    }
    let claim = Claim::read(words);
    let sets = check_quantifiers(&claim)?;
    // Every node is checked, used or not.
    if let Some(broken) = (0..nodes).find(|&index| !claim.node_holds(index)) {
        return refuse(6, 3 * broken);
    }
    match usize::try_from(claim.root) {
        Ok(root) if root < nodes && sort(claim.nodes[root].kind) == Some(Sort::Formula) => {
            Ok(Shape { nodes, quantifiers, sets, root })
        }
        _ => refuse(7, length - 4),
    }
}
