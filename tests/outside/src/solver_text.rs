//! The text for a solver, as docs/SOLVER-TEXT.md fixes it, and what the
//! program `smt` prints.

use crate::emit::reduce;
use crate::table::{Claim, Node};
use crate::text::{read, refusal_line, LENT_WORDS};

const OPENING: &str =
    "(set-logic ALL)\n(declare-const MAXC Int)\n(assert (>= MAXC 0))\n(assert (not\n";
pub const ENDING: &str = "(check-sat)\n";

/// What the program `smt` prints for a text.
pub fn smt_prints(text: &[u8]) -> String {
    match read(text).and_then(|words| reduce(&words, LENT_WORDS)) {
        Ok(emission) => text_of(&Claim::read(&emission)),
        Err(refusal) => refusal_line(refusal),
    }
}

/// The text of a claim without sets.
pub fn text_of(claim: &Claim) -> String {
    let mut text = OPENING.to_string();
    let mut closing = claim.nodes.len() + 2;
    for (number, &word) in claim.quantifiers.iter().enumerate() {
        let lines = quantifier_lines(number, word);
        closing += lines.lines().count();
        text += &lines;
    }
    for (number, &node) in claim.nodes.iter().enumerate() {
        text += &format!("(let ((n{number} {}))\n", expression(node));
    }
    text += &format!("n{}\n{}\n", claim.root, ")".repeat(closing));
    text + ENDING
}

/// One line, and for a count a second one. Each leaves one bracket open.
fn quantifier_lines(number: usize, word: i32) -> String {
    match word {
        1 => format!("(exists ((q{number} Int))\n"),
        2 => format!("(forall ((q{number} Int))\n"),
        5 => format!("(exists ((q{number} Int))\n(and (>= q{number} 0)\n"),
        6 => format!("(forall ((q{number} Int))\n(=> (>= q{number} 0)\n"),
        _ => unreachable!("an emission has no quantifier of kind {word}"),
    }
}

fn expression(Node { kind, a, b }: Node) -> String {
    let two = |operator: &str| format!("({operator} n{a} n{b})");
    match kind {
        10 => format!("q{a}"),
        11 => whole_number(a),
        12 => "MAXC".to_string(),
        13 => two("+"),
        14 => two("-"),
        15 => format!("(* {} n{b})", whole_number(a)),
        20 => two("="),
        21 => two("<"),
        22 => divisible(a, b),
        25 => two("and"),
        26 => two("or"),
        27 => format!("(not n{a})"),
        _ => unreachable!("an emission has no node of kind {kind}"),
    }
}

/// A minus is an operator.
fn whole_number(word: i32) -> String {
    match word {
        0.. => word.to_string(),
        _ => format!("(- {})", word.unsigned_abs()),
    }
}

/// The divisor is written without its sign, which the side of the 0 keeps.
fn divisible(divisor: i32, term: i32) -> String {
    let magnitude = divisor.unsigned_abs();
    match divisor {
        0 => format!("(and false (= n{term} 0))"),
        1.. => format!("(= (mod n{term} {magnitude}) 0)"),
        _ => format!("(= 0 (mod n{term} {magnitude}))"),
    }
}
