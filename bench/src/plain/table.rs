// Claim tables in plain Rust: their check, and the patterns of their sets.

pub const MAX_NODES: usize = 1024;

// Of each word of a pattern, those of all nodes.
pub type Patterns = Vec<[u64; MAX_NODES]>;

// What the fields a and b of each kind of node must be.
#[rustfmt::skip]
const NEED: [[u8; 2]; 28] = [
    [9, 9], [5, 0], [0, 0], [0, 0], [1, 1], [1, 1], [1, 0], [9, 9], [9, 9], [9, 9], [6, 0], [4, 0], [0, 0], [2, 2],
    [2, 2], [4, 2], [1, 0], [9, 9], [9, 9], [9, 9], [2, 2], [2, 2], [4, 2], [1, 1], [1, 1], [3, 3], [3, 3], [3, 0],
];

pub struct Table<'a> {
    pub words: &'a [i32],
    pub nodes: usize,
    pub quantifiers: usize,
    pub sets: usize,
    pub root: usize,
}

fn sort_of(kind: i32) -> u8 {
    match kind {
        1..=6 => 1,
        10..=16 => 2,
        20..=27 => 3,
        _ => 0,
    }
}

pub fn binds_set(kind: i32) -> bool {
    kind == 3 || kind == 4
}

impl<'a> Table<'a> {
    pub fn quantifier(&self, j: usize) -> i32 {
        self.words[3 * self.nodes + j]
    }

    pub fn node(&self, i: usize) -> (i32, i32, i32) {
        (self.words[3 * i], self.words[3 * i + 1], self.words[3 * i + 2])
    }

    fn serves(&self, i: usize, need: u8, v: i32) -> bool {
        match need {
            0 => v == 0,
            4 => true,
            1..=3 => v >= 0 && (v as usize) < i && sort_of(self.words[3 * v as usize]) == need,
            5 | 6 => v >= 0 && (v as usize) < self.quantifiers && binds_set(self.quantifier(v as usize)) == (need == 5),
            _ => false,
        }
    }

    pub fn check(words: &'a [i32]) -> Option<Table<'a>> {
        let l = words.len();
        if l < 4 || words[l - 1] != 2005 {
            return None;
        }
        let (n, q, root) = (words[l - 3], words[l - 2], words[l - 4]);
        if !(1..=1024).contains(&n) || !(0..=32).contains(&q) || l != 3 * n as usize + q as usize + 4 {
            return None;
        }
        let mut t = Table { words, nodes: n as usize, quantifiers: q as usize, sets: 0, root: root as usize };
        for j in 0..t.quantifiers {
            if !(1..=6).contains(&t.quantifier(j)) {
                return None;
            }
            t.sets += binds_set(t.quantifier(j)) as usize;
        }
        if t.sets > 8 {
            return None;
        }
        for i in 0..t.nodes {
            let (k, a, b) = t.node(i);
            if sort_of(k) == 0 || !t.serves(i, NEED[k as usize][0], a) || !t.serves(i, NEED[k as usize][1], b) {
                return None;
            }
        }
        let formula = root >= 0 && root < n && sort_of(words[3 * root as usize]) == 3;
        formula.then_some(t)
    }

    fn inside(&self, q: usize) -> usize {
        (q + 1..self.quantifiers).filter(|&j| binds_set(self.quantifier(j))).count()
    }

    // The words of a pattern.
    pub fn pattern_words(&self) -> usize {
        1 << self.sets.saturating_sub(6)
    }

    pub fn no_patterns(&self) -> Patterns {
        vec![[0; MAX_NODES]; self.pattern_words()]
    }

    pub fn put_pattern(&self, patterns: &mut Patterns, i: usize) {
        for (j, words) in patterns.iter_mut().enumerate() {
            words[i] = self.word(words, i, j);
        }
    }

    // Word j of node i's pattern, from the words j of the nodes before.
    fn word(&self, before: &[u64], i: usize, j: usize) -> u64 {
        let (k, a, b) = self.node(i);
        let (a, b) = (a as usize, b as usize);
        match k {
            1 => variable(self.inside(a), j) & whole(self.sets, j),
            3 => whole(self.sets, j),
            4 => before[a] | before[b],
            5 => before[a] & before[b],
            6 => whole(self.sets, j) & !before[a],
            16 => before[a],
            23 => before[a] ^ before[b],
            24 => before[a] & !before[b],
            _ => 0,
        }
    }
}

// Word j of all regions, and of those inside the set at a position.
fn whole(sets: usize, j: usize) -> u64 {
    match (1usize << sets).saturating_sub(64 * j) {
        0 => 0,
        left @ 1..64 => u64::MAX >> (64 - left),
        _ => u64::MAX,
    }
}

fn variable(position: usize, j: usize) -> u64 {
    const BITS: [u64; 6] = [
        0xAAAA_AAAA_AAAA_AAAA,
        0xCCCC_CCCC_CCCC_CCCC,
        0xF0F0_F0F0_F0F0_F0F0,
        0xFF00_FF00_FF00_FF00,
        0xFFFF_0000_FFFF_0000,
        0xFFFF_FFFF_0000_0000,
    ];
    match position {
        0..6 => BITS[position],
        _ => ((j >> (position - 6) & 1) as u64).wrapping_neg(),
    }
}

// Whether a field of such a node is a term or a formula.
pub fn uses(kind: i32, field: usize) -> bool {
    matches!(NEED[kind as usize][field], 2 | 3)
}
