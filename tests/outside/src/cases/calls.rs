//! Single comparisons of library calls, for all groups to use.

use outside::emit;
use outside::rule::{self, Outcome};
use outside::table::{self, Refusal};
use outside::text::spaced;

use super::tally::Tally;
use crate::engine::{self, check_row, outcome_row, reduce_row, Row};

/// What the output slice holds before a call. No emission has this word but
/// by a free word of its input, so a place left as it was shows.
const PATTERN: i32 = -0x5A5A_5A5B;
/// Words lent behind the output slice, which no call may write.
const MARGIN: usize = 4;

/// A library call's whole effect.
#[derive(Debug, PartialEq)]
struct Effect {
    row: Row,
    input_kept: bool,
    /// The first output word that is not what it has to be.
    wrong_output_at: Option<usize>,
}

impl Effect {
    fn of_row(row: Row) -> Effect {
        Effect { row, input_kept: true, wrong_output_at: None }
    }
}

/// The checker's answer on a table.
pub fn check(tally: &mut Tally, words: &[i32]) {
    let lent = words.to_vec();
    let mut found = Effect::of_row(engine::check(&lent));
    found.input_kept = lent == words;
    let expected = Effect::of_row(check_row(table::check(words)));
    tally.compare(&expected, &found, || format!("check of words: {}", spaced(words)));
}

/// The reducer on a table: with room to spare, exact, one short and none.
/// Returns the product's emission, if there has to be one.
pub fn reduce(tally: &mut Tally, words: &[i32]) -> Option<Vec<i32>> {
    let emission = emit::reduce(words, usize::MAX);
    // A refused table needs no room; any rooms will do.
    let needed = emission.as_ref().map_or(8, Vec::len);
    let mut found = Vec::new();
    for room in [0, needed - 1, needed + 9, needed] {
        found = reduce_in(tally, words, &emission, room);
    }
    emission.ok()?;
    Some(found)
}

/// The reducer's answer with an output slice of a given length, and every
/// word of that slice and behind it. Returns the slice.
fn reduce_in(
    tally: &mut Tally,
    words: &[i32],
    emission: &Result<Vec<i32>, Refusal>,
    room: usize,
) -> Vec<i32> {
    let mut output = vec![PATTERN; room + MARGIN];
    let mut found_output = output.clone();
    let answer = match emission {
        Ok(emitted) if emitted.len() > room => table::refuse(8, emitted.len()),
        Ok(emitted) => {
            output[..emitted.len()].copy_from_slice(emitted);
            Ok(emitted.len())
        }
        Err(refusal) => Err(*refusal),
    };
    let lent = words.to_vec();
    let mut found = Effect::of_row(engine::reduce(&lent, &mut found_output[..room]));
    found.input_kept = lent == words;
    if output != found_output {
        found.wrong_output_at = (0..output.len()).find(|&at| output[at] != found_output[at]);
    }
    let wrong = found.wrong_output_at;
    tally.compare(&Effect::of_row(reduce_row(answer)), &found, || {
        let pair =
            wrong.map(|at| format!("; word expected {}, found {}", output[at], found_output[at]));
        let pair = pair.unwrap_or_default();
        format!("reduce into {room} words of words: {}{pair}", spaced(words))
    });
    found_output.truncate(room);
    found_output
}

/// The decider's answer; returns what it has to be.
pub fn decide(tally: &mut Tally, words: &[i32], size: u32, allowance: u64) -> Outcome {
    let expected = rule::decide(words, size, allowance);
    decided(tally, words, size, allowance, expected);
    expected
}

/// The decider's answer against one that is known already.
pub fn decided(tally: &mut Tally, words: &[i32], size: u32, allowance: u64, expected: Outcome) {
    let lent = words.to_vec();
    let mut found = Effect::of_row(engine::decide(&lent, size, allowance));
    found.input_kept = lent == words;
    tally.compare(&Effect::of_row(outcome_row(expected)), &found, || {
        format!("decide at size {size}, allowance {allowance}, of words: {}", spaced(words))
    });
}
