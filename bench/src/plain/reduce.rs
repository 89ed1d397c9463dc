// The reducer in plain Rust: the same emission, counted and then written.
use super::table::{binds_set, uses, Patterns, Table, MAX_NODES};

struct Writer<'a> {
    out: &'a mut [i32],
    at: usize,
}

impl Writer<'_> {
    fn put(&mut self, kind: i32, a: i32, b: i32) {
        self.out[3 * self.at..3 * self.at + 3].copy_from_slice(&[kind, a, b]);
        self.at += 1;
    }

    fn back(&self, n: usize) -> i32 {
        (self.at - n) as i32
    }

    fn region(&mut self, level: usize, first: usize, r: usize) {
        if level == 0 {
            self.put(12, 0, 0);
        } else {
            self.put(10, (first + r) as i32, 0);
        }
    }

    // The sum of the regions' sizes.
    fn card(&mut self, regions: impl Iterator<Item = usize>, level: usize, first: usize) {
        let start = self.at;
        for r in regions {
            self.region(level, first, r);
            if start + 1 < self.at {
                self.put(13, self.back(2), self.back(1));
            }
        }
        if start == self.at {
            self.put(11, 0, 0);
        }
    }

    fn empty(&mut self, regions: impl Iterator<Item = usize>, level: usize, first: usize) {
        self.card(regions, level, first);
        self.put(11, 0, 0);
        self.put(20, self.back(2), self.back(1));
    }
}

// The bits of a word, from the lowest up.
fn bits(mut word: u64) -> impl Iterator<Item = usize> {
    std::iter::from_fn(move || {
        let bit = word.trailing_zeros() as usize;
        (word != 0).then(|| {
            word &= word - 1;
            bit
        })
    })
}

struct Reduction<'a> {
    t: Table<'a>,
    patterns: Patterns,
    // The emitted node that stands for each.
    last: [usize; MAX_NODES],
    // The first emitted quantifier of each.
    number: [usize; 32],
    // The emitted quantifiers, and where those of the final regions start.
    quantifiers: usize,
    level: usize,
    first: usize,
}

impl Reduction<'_> {
    // The words of what node a's pattern covers and node b's, if one is given, does not.
    fn words(&self, a: usize, b: Option<usize>) -> impl Iterator<Item = u64> + '_ {
        self.patterns.iter().map(move |words| words[a] & !b.map_or(0, |b| words[b]))
    }

    fn regions(&self, a: usize, b: Option<usize>) -> impl Iterator<Item = usize> + '_ {
        self.words(a, b).enumerate().flat_map(|(j, word)| bits(word).map(move |bit| 64 * j + bit))
    }

    fn card_nodes(&self, a: usize, b: Option<usize>) -> usize {
        let regions: u32 = self.words(a, b).map(u64::count_ones).sum();
        (2 * regions as usize).saturating_sub(1).max(1)
    }

    fn number_quantifiers(&mut self) {
        for j in 0..self.t.quantifiers {
            self.number[j] = self.quantifiers;
            if binds_set(self.t.quantifier(j)) {
                self.first = self.quantifiers;
                self.level += 1;
                self.quantifiers += 1 << self.level;
            } else {
                self.quantifiers += 1;
            }
        }
    }

    fn words_needed(&mut self) -> usize {
        let t = &self.t;
        let alls = (0..t.quantifiers).filter(|&j| t.quantifier(j) == 4).count();
        let mut nodes = 6 * ((1 << t.sets) - 1) + alls;
        for i in 0..t.nodes {
            let (k, a, b) = t.node(i);
            let (a, b) = (a as usize, b as usize);
            t.put_pattern(&mut self.patterns, i);
            nodes += match k {
                1..=6 => 0,
                16 => self.card_nodes(i, None),
                24 => self.card_nodes(i, None) + 2,
                23 => self.card_nodes(a, Some(b)) + self.card_nodes(b, Some(a)) + 5,
                _ => 1,
            };
        }
        3 * nodes + self.quantifiers + 4
    }

    fn put_nodes(&mut self, w: &mut Writer) {
        let (level, first) = (self.level, self.first);
        for i in 0..self.t.nodes {
            let (k, a, b) = self.t.node(i);
            match k {
                1..=6 => continue,
                16 => w.card(self.regions(i, None), level, first),
                24 => w.empty(self.regions(i, None), level, first),
                23 => {
                    let (a, b) = (a as usize, b as usize);
                    w.empty(self.regions(a, Some(b)), level, first);
                    let one = w.back(1);
                    w.empty(self.regions(b, Some(a)), level, first);
                    w.put(25, one, w.back(1));
                }
                10 => w.put(10, self.number[a as usize] as i32, 0),
                _ => {
                    let new = |f: usize, c: i32| if uses(k, f) { self.last[c as usize] as i32 } else { c };
                    w.put(k, new(0, a), new(1, b));
                }
            }
            self.last[i] = w.at - 1;
        }
    }

    // Set quantifier j's constraint around a body: the new body.
    fn put_constraint(&self, w: &mut Writer, j: usize, body: i32) -> i32 {
        let (mut outer, mut from) = (0, 0);
        for e in (0..j).filter(|&e| binds_set(self.t.quantifier(e))) {
            (outer, from) = (outer + 1, self.number[e]);
        }
        let inner = self.number[j];
        for r in 0..1 << outer {
            w.region(outer, from, r);
            w.put(10, (inner + 2 * r) as i32, 0);
            w.put(10, (inner + 2 * r + 1) as i32, 0);
            w.put(13, w.back(2), w.back(1));
            w.put(20, w.back(4), w.back(1));
            if r > 0 {
                w.put(25, w.back(6), w.back(1));
            }
        }
        if self.t.quantifier(j) == 3 {
            w.put(25, w.back(1), body);
        } else {
            w.put(27, w.back(1), 0);
            w.put(26, w.back(1), body);
        }
        w.back(1)
    }

    fn put_quantifiers(&self, out: &mut [i32], mut at: usize) -> usize {
        let mut level = 0;
        for j in 0..self.t.quantifiers {
            let k = self.t.quantifier(j);
            let (n, word) = if binds_set(k) {
                level += 1;
                (1 << level, k + 2)
            } else {
                (1, k)
            };
            out[at..at + n].fill(word);
            at += n;
        }
        at
    }
}

// How many words were written; none, if the table is refused or does not fit.
pub fn reduce(words: &[i32], out: &mut [i32]) -> Option<usize> {
    let t = Table::check(words)?;
    let patterns = t.no_patterns();
    let mut r = Reduction { t, patterns, last: [0; MAX_NODES], number: [0; 32], quantifiers: 0, level: 0, first: 0 };
    r.number_quantifiers();
    let needed = r.words_needed();
    if out.len() < needed {
        return None;
    }
    let mut w = Writer { out, at: 0 };
    r.put_nodes(&mut w);
    let mut body = r.last[r.t.root] as i32;
    for j in (0..r.t.quantifiers).rev().filter(|&j| binds_set(r.t.quantifier(j))) {
        body = r.put_constraint(&mut w, j, body);
    }
    let total = w.at;
    let at = r.put_quantifiers(out, 3 * total);
    out[at..at + 4].copy_from_slice(&[body, total as i32, r.quantifiers as i32, 2005]);
    Some(needed)
}
