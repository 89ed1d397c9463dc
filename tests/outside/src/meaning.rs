//! The plain meaning of a claim, by trying every subset of N ports.
//!
//! This knows nothing of regions: a set is a bit mask with one bit per port.
//! Integers cannot all be tried, so number quantifiers run over the ranges
//! given. For a claim without number quantifiers the answer is its truth.
//! For others it is the truth over those ranges, which the reduction keeps
//! just as well, because it leaves the number quantifiers alone.

use crate::rule::divides;
use crate::table::{is_for_all, Claim, Node};

/// What number quantifiers range over: integers (kinds 1 and 2) from the
/// first to the last, counts (kinds 5 and 6) from 0 to the highest.
#[derive(Clone, Copy, Debug)]
pub struct Ranges {
    pub first_integer: i128,
    pub last_integer: i128,
    pub highest_count: i128,
}

impl Ranges {
    /// Ranges around a size; `spare` is how far they pass it.
    pub fn around(size: u32, spare: i128) -> Ranges {
        let highest = i128::from(size) + spare;
        Ranges { first_integer: -spare, last_integer: highest, highest_count: highest }
    }

    /// The values of a number quantifier.
    pub fn of(&self, quantifier: i32) -> std::ops::RangeInclusive<i128> {
        match quantifier {
            1 | 2 => self.first_integer..=self.last_integer,
            _ => 0..=self.highest_count,
        }
    }
}

/// The truth of an accepted claim at a size.
pub fn truth(claim: &Claim, size: u32, ranges: Ranges) -> bool {
    let reachable = claim.reachable();
    let needed = (0..claim.nodes.len()).filter(|&index| reachable[index]).collect();
    let variables = vec![0; claim.quantifiers.len()];
    let values = vec![0; claim.nodes.len()];
    Trial { claim, size, ranges, needed, variables, values }.try_all(0)
}

struct Trial<'a> {
    claim: &'a Claim,
    size: u32,
    ranges: Ranges,
    needed: Vec<usize>,
    /// One value per quantifier: the mask of a set, or a number.
    variables: Vec<i128>,
    /// One value per node: a mask, a number, or 0 and 1 for a formula.
    values: Vec<i128>,
}

impl Trial<'_> {
    fn try_all(&mut self, quantifier: usize) -> bool {
        let Some(&word) = self.claim.quantifiers.get(quantifier) else {
            return self.matrix();
        };
        let values = match word {
            3 | 4 => 0..=self.all_ports(),
            _ => self.ranges.of(word),
        };
        // Truth does not depend on the order of trying, nor on stopping.
        let stopping = !is_for_all(word);
        for value in values {
            self.variables[quantifier] = value;
            if self.try_all(quantifier + 1) == stopping {
                return stopping;
            }
        }
        !stopping
    }

    fn all_ports(&self) -> i128 {
        (1 << self.size) - 1
    }

    fn matrix(&mut self) -> bool {
        for place in 0..self.needed.len() {
            let index = self.needed[place];
            self.values[index] = self.evaluate(self.claim.nodes[index]);
        }
        self.values[self.claim.root as usize] == 1
    }

    fn evaluate(&self, node: Node) -> i128 {
        let a = || self.values[node.a as usize];
        let b = || self.values[node.b as usize];
        match node.kind {
            1 | 10 => self.variables[node.a as usize],
            2 => 0,
            3 => self.all_ports(),
            4 => a() | b(),
            5 => a() & b(),
            6 => self.all_ports() & !a(),
            11 => i128::from(node.a),
            12 => i128::from(self.size),
            13 => a() + b(),
            14 => a() - b(),
            15 => i128::from(node.a) * b(),
            16 => i128::from(a().count_ones()),
            20 | 23 => i128::from(a() == b()),
            21 => i128::from(a() < b()),
            22 => i128::from(divides(i128::from(node.a), b())),
            24 => i128::from(a() & !b() == 0),
            25 => i128::from(a() == 1 && b() == 1),
            26 => i128::from(a() == 1 || b() == 1),
            27 => i128::from(a() == 0),
            kind => unreachable!("an accepted claim has no node of kind {kind}"),
        }
    }
}
