// The decider in plain Rust: the same splits in the same order, regions without ports passed over, values of settled nodes kept.
use super::table::{uses, Patterns, Table, MAX_NODES};

const REGIONS: usize = 256;

struct Search<'a> {
    words: &'a [i32],
    patterns: Patterns,
    values: [i32; MAX_NODES],
    order: [usize; MAX_NODES],
    ready: [usize; REGIONS],
    some: [bool; REGIONS],
    counts: [u32; 2 * REGIONS],
    rows: usize,
    root: usize,
    regions: usize,
    size: u32,
    left: u64,
    taken: u64,
}

enum Found {
    Truth(bool),
    Spent,
}

impl Search<'_> {
    fn ports_in(&self, i: usize, counts: &[u32]) -> u32 {
        let mut sum = 0;
        for (j, counts) in counts.chunks(64).enumerate() {
            let mut left = self.patterns[j][i];
            while left != 0 {
                sum += counts[left.trailing_zeros() as usize];
                left &= left - 1;
            }
        }
        sum
    }

    fn evaluate(&mut self, from: usize, to_count: usize, known: usize, to: usize) {
        for k in known..to {
            let i = self.order[k];
            let (kind, a, b) = (self.words[3 * i], self.words[3 * i + 1], self.words[3 * i + 2]);
            let v = &self.values;
            let (x, y) = (a as usize, b as usize);
            self.values[i] = match kind {
                11 => a,
                12 => self.size as i32,
                13 => v[x] + v[y],
                14 => v[x] - v[y],
                15 => a * v[y],
                16 => self.ports_in(i, &self.counts[from..to_count]) as i32,
                20 => (v[x] == v[y]) as i32,
                21 => (v[x] < v[y]) as i32,
                22 => (a != 0 && v[y] % a == 0) as i32,
                23 | 24 => (self.ports_in(i, &self.counts[from..to_count]) == 0) as i32,
                25 => v[x] & v[y],
                26 => v[x] | v[y],
                27 => (v[x] == 0) as i32,
                _ => 0,
            };
        }
    }

    fn splits(&mut self, mut known: usize, mut h: usize) -> Found {
        while h < self.regions && self.counts[h] == 0 {
            self.counts[2 * h] = 0;
            self.counts[2 * h + 1] = 0;
            h += 1;
        }
        if h == self.regions {
            if self.left == 0 {
                return Found::Spent;
            }
            self.left -= 1;
            self.taken += 1;
            self.evaluate(h, 2 * h, known, self.rows);
            return Found::Truth(self.values[self.root] == 1);
        }
        let to = self.ready[h];
        if known < to {
            self.evaluate((2 * h).min(self.regions), 2 * h, known, to);
            known = to;
        }
        let some = self.some[h];
        let all = self.counts[h];
        for k in 0..=all {
            self.counts[2 * h] = all - k;
            self.counts[2 * h + 1] = k;
            match self.splits(known, h + 1) {
                Found::Truth(t) if t != some => {}
                stop => return stop,
            }
        }
        Found::Truth(!some)
    }

    // One past the last region of a node's pattern.
    fn reach(&self, i: usize) -> usize {
        let last = (0..self.patterns.len()).rev().find(|&j| self.patterns[j][i] != 0);
        last.map_or(0, |j| 64 * (j + 1) - self.patterns[j][i].leading_zeros() as usize)
    }

    // The nodes that the root needs, those that few regions settle first.
    fn arrange(&mut self, t: &Table) {
        let mut needed = [false; MAX_NODES];
        let mut settled = [0; MAX_NODES];
        needed[t.root] = true;
        for i in (0..=t.root).rev() {
            if needed[i] {
                mark(t, &mut needed, i);
            }
        }
        for i in 0..t.nodes {
            let (k, a, b) = t.node(i);
            settled[i] = self.reach(i);
            for (f, c) in [a, b].into_iter().enumerate() {
                if uses(k, f) {
                    settled[i] = settled[i].max(settled[c as usize]);
                }
            }
        }
        let mut upto = [0; REGIONS + 1];
        self.rows = 0;
        for end in 0..=self.regions {
            for i in 0..t.nodes {
                if needed[i] && settled[i] == end {
                    self.order[self.rows] = i;
                    self.rows += 1;
                }
            }
            upto[end] = self.rows;
        }
        for h in 1..self.regions {
            self.ready[h] = upto[(2 * h).saturating_sub(self.regions)];
        }
    }
}

fn mark(t: &Table, needed: &mut [bool], i: usize) {
    let (k, a, b) = t.node(i);
    for (f, c) in [a, b].into_iter().enumerate() {
        if uses(k, f) {
            needed[c as usize] = true;
        }
    }
}

// Refusals 9 to 11.
fn admit(t: &Table, size: u32) -> bool {
    let mut bounds = [0u64; MAX_NODES];
    if size > 4096 || t.sets < t.quantifiers {
        return false;
    }
    for i in 0..t.nodes {
        let (k, a, b) = t.node(i);
        bounds[i] = match k {
            11 => a.unsigned_abs() as u64,
            12 | 16 => size as u64,
            13 | 14 => bounds[a as usize] + bounds[b as usize],
            15 => a.unsigned_abs() as u64 * bounds[b as usize],
            _ => 0,
        };
        if bounds[i] > 1_000_000_000 {
            return false;
        }
    }
    true
}

// The outcome (1 true, 2 false, 3 spent, 0 refused) and the steps.
pub fn decide(words: &[i32], size: u32, allowance: u64) -> (u64, u64) {
    let Some(t) = Table::check(words).filter(|t| admit(t, size)) else {
        return (0, 0);
    };
    let mut s = Search {
        words,
        patterns: t.no_patterns(),
        values: [0; MAX_NODES],
        order: [0; MAX_NODES],
        ready: [0; REGIONS],
        some: [false; REGIONS],
        counts: [0; 2 * REGIONS],
        rows: 0,
        root: t.root,
        regions: 1,
        size,
        left: allowance,
        taken: 0,
    };
    for j in 0..t.quantifiers {
        for h in s.regions..2 * s.regions {
            s.some[h] = t.quantifier(j) == 3;
        }
        s.regions *= 2;
    }
    for i in 0..t.nodes {
        t.put_pattern(&mut s.patterns, i);
    }
    s.arrange(&t);
    s.counts[1] = size;
    match s.splits(0, 1) {
        Found::Truth(true) => (1, s.taken),
        Found::Truth(false) => (2, s.taken),
        Found::Spent => (3, s.taken),
    }
}
