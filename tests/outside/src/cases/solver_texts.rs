//! The program `smt` byte for byte against docs/SOLVER-TEXT.md as it is
//! followed here, on texts that it takes and on texts that it refuses.

use outside::claims::{any_claim, any_quantifiers, Words};
use outside::damage::damage;
use outside::draft::Draft;
use outside::random::Random;
use outside::scribble::{dress, edges, scribble};
use outside::solver_text::smt_prints;
use outside::text::{spaced, LENT_WORDS};

use super::examples::{EVEN, ONE_ELEMENT};
use super::limits::{largest, of_nodes};
use super::programs::emitting;
use super::solver_claims::claims;
use super::tally::Tally;
use crate::engine::Programs;

const PAGE: &str = include_str!("../../../../docs/SOLVER-TEXT.md");

/// Every kind of node, each free word below, at and above 0, and every kind
/// of number quantifier.
#[rustfmt::skip]
const EVERY_KIND: [i32; 74] = [
    10, 0, 0,  10, 1, 0,  10, 2, 0,  10, 3, 0,  11, -5, 0,  11, 0, 0,  11, i32::MIN, 0,
    12, 0, 0,  13, 0, 1,  14, 2, 3,  15, -5, 4,  15, 0, 5,  15, 5, 6,  20, 7, 8,  21, 9, 10,
    22, -5, 11,  22, 0, 12,  22, 5, 0,  22, i32::MIN, 1,  25, 13, 14,  26, 15, 16,  27, 17, 0,
    // Quantifiers, root, counts, mark.
    1, 2, 5, 6,
    19, 22, 4, 2005,
];
const EVERY_KIND_TEXT: &str = "(set-logic ALL)
(declare-const MAXC Int)
(assert (>= MAXC 0))
(assert (not
(exists ((q0 Int))
(forall ((q1 Int))
(exists ((q2 Int))
(and (>= q2 0)
(forall ((q3 Int))
(=> (>= q3 0)
(let ((n0 q0))
(let ((n1 q1))
(let ((n2 q2))
(let ((n3 q3))
(let ((n4 (- 5)))
(let ((n5 0))
(let ((n6 (- 2147483648)))
(let ((n7 MAXC))
(let ((n8 (+ n0 n1)))
(let ((n9 (- n2 n3)))
(let ((n10 (* (- 5) n4)))
(let ((n11 (* 0 n5)))
(let ((n12 (* 5 n6)))
(let ((n13 (= n7 n8)))
(let ((n14 (< n9 n10)))
(let ((n15 (= 0 (mod n11 5))))
(let ((n16 (and false (= n12 0))))
(let ((n17 (= (mod n0 5) 0)))
(let ((n18 (= 0 (mod n1 2147483648))))
(let ((n19 (and n13 n14)))
(let ((n20 (or n15 n16)))
(let ((n21 (not n17)))
n19
))))))))))))))))))))))))))))))
(check-sat)
";

/// Our own writer: the page's example stands on the page, and every kind.
pub fn with_ourselves(tally: &mut Tally) {
    let sample = smt_prints(spaced(&ONE_ELEMENT).as_bytes());
    let on_page = PAGE.contains(&format!("```\n{sample}```\n"));
    tally.compare(&true, &on_page, || format!("the page's example, which we write {sample}"));
    let found = smt_prints(spaced(&EVERY_KIND).as_bytes());
    tally.compare(EVERY_KIND_TEXT, &found, || "our text of every kind".to_string());
}

/// The program on the solvers' claims, on random ones whole, damaged and
/// scribbled on, at the reader's edges and at the longest outputs.
pub fn run(tally: &mut Tally, programs: &Programs) {
    let mut smt = |text: &[u8]| {
        let expected = Ok(smt_prints(text));
        let found = programs.run("smt", &[], text);
        tally.compare(&expected, &found, || format!("smt of text \"{}\"", text.escape_ascii()));
    };
    smt(spaced(&EVERY_KIND).as_bytes());
    for words in claims() {
        smt(spaced(&words).as_bytes());
    }
    for text in [&ONE_ELEMENT[..], &EVEN].into_iter().flat_map(edges) {
        smt(&text);
    }
    let mut random = Random::new(52);
    for round in 0..3_000 {
        smt(&random_text(&mut random, round));
    }
    for length in LENT_WORDS - 3..=LENT_WORDS + 3 {
        smt(spaced(&emitting(length)).as_bytes());
    }
    for words in [largest(6), largest(8), of_nodes(1024), of_nodes(1025), longest_lines()] {
        smt(spaced(&words).as_bytes());
    }
}

fn random_text(random: &mut Random, round: usize) -> Vec<u8> {
    let (sets, others) = (random.below(6), random.below(4));
    let quantifiers = any_quantifiers(random, sets, others);
    let nodes = 2 + random.below(30);
    let mut words = any_claim(random, &quantifiers, nodes, Words::Extreme);
    if round % 4 == 1 {
        damage(random, &mut words);
    }
    let mut text = dress(random, &words);
    if round % 4 == 3 {
        scribble(random, &mut text);
    }
    text
}

/// The longest line there is, as often as it can stand in a claim.
fn longest_lines() -> Vec<i32> {
    let mut draft = Draft::new(&[]);
    let size = draft.put(12, 0, 0);
    while draft.nodes() < 1024 {
        draft.put(22, i32::MIN, size);
    }
    draft.finished()
}
