//! A claim table being written, node by node.

use crate::table::{sort, Sort, MARK};

#[derive(Clone, Default)]
pub struct Draft {
    pub words: Vec<i32>,
    pub quantifiers: Vec<i32>,
    /// The nodes so far, by sort.
    pub sets: Vec<i32>,
    pub terms: Vec<i32>,
    pub formulas: Vec<i32>,
}

impl Draft {
    pub fn new(quantifiers: &[i32]) -> Draft {
        Draft { quantifiers: quantifiers.to_vec(), ..Draft::default() }
    }

    /// Adds a node and returns its number.
    pub fn put(&mut self, kind: i32, a: i32, b: i32) -> i32 {
        let number = self.nodes();
        self.words.extend([kind, a, b]);
        match sort(kind) {
            Some(Sort::Set) => self.sets.push(number),
            Some(Sort::Term) => self.terms.push(number),
            Some(Sort::Formula) => self.formulas.push(number),
            None => {}
        }
        number
    }

    pub fn nodes(&self) -> i32 {
        (self.words.len() / 3) as i32
    }

    /// The whole table with the given root.
    pub fn rooted(&self, root: i32) -> Vec<i32> {
        let mut words = self.words.clone();
        words.extend(&self.quantifiers);
        words.extend([root, self.nodes(), self.quantifiers.len() as i32, MARK]);
        words
    }

    /// The whole table, rooted at its last node.
    pub fn finished(&self) -> Vec<i32> {
        self.rooted(self.nodes() - 1)
    }
}
