//! The programs' text: reading decimal words, and printing answers.

use crate::emit::reduce;
use crate::rule::{decide, Outcome};
use crate::table::{refuse, Claim, Refusal, TRAILER};

pub const BYTE_LIMIT: usize = 65_535;
pub const NUMBER_LIMIT: usize = 4_096;
/// The output words the program `reduce` lends.
pub const LENT_WORDS: usize = 16_384;

/// Refusal 0, or the words of the text. No number at all is an empty table.
pub fn read(text: &[u8]) -> Result<Vec<i32>, Refusal> {
    if text.len() > BYTE_LIMIT {
        return refuse(0, 0);
    }
    let between = |byte: &u8| matches!(byte, b' ' | b'\r' | b'\n');
    let mut words = Vec::new();
    for piece in text.split(between).filter(|piece| !piece.is_empty()) {
        match number(piece) {
            Some(word) => words.push(word),
            None => return refuse(0, 0),
        }
    }
    if words.len() > NUMBER_LIMIT {
        return refuse(0, 0);
    }
    Ok(words)
}

/// A minus sign or none, then digits, in signed 32-bit range. Zeros may
/// lead, any number of them, and minus zero is zero.
fn number(piece: &[u8]) -> Option<i32> {
    let (negative, digits) = match piece {
        [b'-', digits @ ..] => (true, digits),
        digits => (false, digits),
    };
    let value = i128::from(digits_value(digits, 1 << 31)?);
    i32::try_from(if negative { -value } else { value }).ok()
}

/// The value of a run of one or more digits, if it is at most the limit.
fn digits_value(digits: &[u8], limit: u128) -> Option<u64> {
    let mut value: u128 = 0;
    for &byte in digits {
        if !byte.is_ascii_digit() {
            return None;
        }
        // Held just past the limit, so that no length of text overflows.
        value = (value * 10 + u128::from(byte - b'0')).min(limit + 1);
    }
    let within = !digits.is_empty() && value <= limit;
    within.then_some(value as u64)
}

/// An argument of the program `decide`: digits alone, within the limit.
pub fn argument(text: &[u8], limit: u64) -> Option<u64> {
    digits_value(text, u128::from(limit))
}

/// What the program `reduce` prints for a text.
pub fn reduce_prints(text: &[u8]) -> String {
    match read(text).and_then(|words| reduce(&words, LENT_WORDS)) {
        Ok(emission) => table_lines(&emission),
        Err(refusal) => refusal_line(refusal),
    }
}

/// What the program `decide` prints for its arguments and a text. Arguments
/// that are not a size and an allowance are refused like damaged text.
pub fn decide_prints(arguments: &[Vec<u8>], text: &[u8]) -> String {
    let read_both = || match arguments {
        [size, allowance] => {
            let size = argument(size, u64::from(u32::MAX))?;
            Some((size as u32, argument(allowance, u64::MAX)?))
        }
        _ => None,
    };
    let Some((size, allowance)) = read_both() else {
        return refusal_line(Refusal { number: 0, place: 0 });
    };
    match read(text) {
        Ok(words) => outcome_line(decide(&words, size, allowance)),
        Err(refusal) => refusal_line(refusal),
    }
}

/// A table, one node a line, the quantifiers on one line, the trailer.
pub fn table_lines(words: &[i32]) -> String {
    let claim = Claim::read(words);
    let mut lines = String::new();
    for node in words[..3 * claim.nodes.len()].chunks(3) {
        lines += &line(node);
    }
    if !claim.quantifiers.is_empty() {
        lines += &line(&claim.quantifiers);
    }
    lines + &line(&words[words.len() - TRAILER..])
}

fn line(words: &[i32]) -> String {
    spaced(words) + "\n"
}

/// Words in decimal with one space between.
pub fn spaced(words: &[i32]) -> String {
    let words: Vec<String> = words.iter().map(i32::to_string).collect();
    words.join(" ")
}

pub fn refusal_line(refusal: Refusal) -> String {
    format!("refused {} {}\n", refusal.number, refusal.place)
}

pub fn outcome_line(outcome: Outcome) -> String {
    match outcome {
        Outcome::Refused(refusal) => refusal_line(refusal),
        Outcome::True(steps) => format!("true {steps}\n"),
        Outcome::False(steps) => format!("false {steps}\n"),
        Outcome::Spent(steps) => format!("spent {steps}\n"),
    }
}
