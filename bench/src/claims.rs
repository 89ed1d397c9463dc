// The claims that are measured: some sets and nodes of a given make, the same on every run.

pub struct Claim {
    pub name: String,
    pub words: Vec<i32>,
    pub size: u32,
}

// What the matrix is made of.
#[derive(Clone, Copy, PartialEq)]
pub enum Make {
    Counting,
    SetsOnly,
    Mixed,
}

// The quantifiers: all exists, all for-all, or in turn.
#[derive(Clone, Copy, PartialEq)]
pub enum Prefix {
    Exists,
    ForAll,
    Alternating,
}

struct Draft {
    nodes: Vec<[i32; 3]>,
    state: u64,
}

impl Draft {
    fn add(&mut self, kind: i32, a: i32, b: i32) -> i32 {
        self.nodes.push([kind, a, b]);
        self.nodes.len() as i32 - 1
    }

    fn pick(&mut self, n: usize) -> usize {
        self.state ^= self.state << 13;
        self.state ^= self.state >> 7;
        self.state ^= self.state << 17;
        (self.state % n as u64) as usize
    }

    fn choose(&mut self, from: &[i32]) -> i32 {
        from[self.pick(from.len())]
    }

    fn set_expression(&mut self, from: &[i32]) -> i32 {
        let (a, b) = (self.choose(from), self.choose(from));
        match self.pick(3) {
            0 => self.add(4, a, b),
            1 => self.add(5, a, b),
            _ => self.add(6, a, 0),
        }
    }

    // The size, and for `nodes` nodes in all a fitting number of cardinalities and sums.
    fn terms(&mut self, nodes: usize, sets: &[i32]) -> Vec<i32> {
        let mut terms = vec![self.add(12, 0, 0)];
        for _ in 0..nodes / 4 + 1 {
            let set = self.choose(sets);
            terms.push(self.add(16, set, 0));
        }
        for _ in 0..nodes / 16 {
            let (a, b) = (self.choose(&terms), self.choose(&terms));
            terms.push(self.add(13, a, b));
        }
        terms
    }

    // A comparison of two terms, or of two sets.
    fn atom(&mut self, make: Make, sets: &[i32], terms: &[i32]) -> i32 {
        let by_sets = make == Make::SetsOnly || make == Make::Mixed && self.pick(2) == 0;
        let from = if by_sets { sets } else { terms };
        let kind = if by_sets { 23 + self.pick(2) as i32 } else { 20 + self.pick(2) as i32 };
        let (a, b) = (self.choose(from), self.choose(from));
        self.add(kind, a, b)
    }
}

// So many nodes over `sets` sets, where the make takes no more. Under exists the matrix is `f and not f`, under for-all `f or not f`,
// so that every split is tried.
pub fn claim(sets: usize, nodes: usize, make: Make, prefix: Prefix, size: u32) -> Claim {
    let mut d = Draft { nodes: Vec::new(), state: 0x2005_0003 + (sets * 1000 + nodes) as u64 };
    let mut expressions: Vec<i32> = (0..sets).map(|q| d.add(1, q as i32, 0)).collect();
    for _ in 0..nodes / 8 {
        let made = d.set_expression(&expressions);
        expressions.push(made);
    }
    let terms = if make == Make::SetsOnly { Vec::new() } else { d.terms(nodes, &expressions) };
    let closing = if prefix == Prefix::Alternating { 0 } else { 2 };
    let mut f = d.atom(make, &expressions, &terms);
    while d.nodes.len() + 2 + closing <= nodes {
        let g = d.atom(make, &expressions, &terms);
        let join = 25 + d.pick(2) as i32;
        f = d.add(join, f, g);
    }
    if d.nodes.len() + closing < nodes {
        f = d.add(27, f, 0);
    }
    if prefix != Prefix::Alternating {
        let not = d.add(27, f, 0);
        f = d.add(if prefix == Prefix::Exists { 25 } else { 26 }, f, not);
    }
    finish(d, sets, make, prefix, f, size)
}

// Five nodes: exists x, |x| + MAXC < |x|, which is false at every size from 0 up.
pub fn five_nodes(size: u32) -> Claim {
    let mut d = Draft { nodes: Vec::new(), state: 0 };
    let x = d.add(1, 0, 0);
    let count = d.add(16, x, 0);
    let all = d.add(12, 0, 0);
    let sum = d.add(13, count, all);
    let root = d.add(21, sum, count);
    finish(d, 1, Make::Counting, Prefix::Exists, root, size)
}

fn finish(d: Draft, sets: usize, make: Make, prefix: Prefix, root: i32, size: u32) -> Claim {
    let mut words: Vec<i32> = d.nodes.concat();
    words.extend((0..sets).map(|q| match prefix {
        Prefix::Exists => 3,
        Prefix::ForAll => 4,
        Prefix::Alternating => 3 + (q % 2) as i32,
    }));
    words.extend([root, d.nodes.len() as i32, sets as i32, 2005]);
    let make = ["counting", "sets only", "mixed"][make as usize];
    let prefix = ["exists", "for all", "alternating"][prefix as usize];
    let plural = if sets == 1 { "" } else { "s" };
    let name = format!("{sets} set{plural}, {} nodes, {make}, {prefix}", d.nodes.len());
    Claim { name, words, size }
}
