//! Rows that are shorter than an answer: they get what fits, and nothing
//! behind them is written.

use outside::emit;
use outside::rule;
use outside::table;
use outside::text::spaced;

use super::examples::{EVEN, ONE_ELEMENT};
use super::tally::Tally;
use crate::engine::{self, check_row, outcome_row, reduce_row, Row, ROW, UNTOUCHED};

/// Words lent for a row of any length tried here.
const LENT: usize = ROW + 3;

pub fn run(tally: &mut Tally) {
    let accepted = [&ONE_ELEMENT[..], &EVEN[..]];
    let refused = [&[][..], &[1, 2, 3], &ONE_ELEMENT[1..], &EVEN[..29]];
    for words in accepted.into_iter().chain(refused) {
        for row_len in 0..=ROW {
            one_length(tally, words, row_len);
        }
    }
}

fn one_length(tally: &mut Tally, words: &[i32], row_len: usize) {
    let fitting = |answer: Row| -> Vec<u64> {
        let mut row = vec![UNTOUCHED; LENT];
        row[..row_len].copy_from_slice(&answer[..row_len]);
        row
    };
    let input = |call: &str| format!("{call} with a row of {row_len}, of words: {}", spaced(words));
    let expected = fitting(check_row(table::check(words)));
    let found = engine::check_into(words, row_len, LENT);
    tally.compare(&expected, &found, || input("check"));

    // The output slice must not depend on the row's length.
    let emission = emit::reduce(words, 200);
    let mut output = vec![-7; 200];
    if let Ok(emitted) = &emission {
        output[..emitted.len()].copy_from_slice(emitted);
    }
    let mut found_output = vec![-7; 200];
    let expected = fitting(reduce_row(emission.map(|emitted| emitted.len())));
    let found = engine::reduce_into(words, &mut found_output, row_len, LENT);
    tally.compare(&(expected, output), &(found, found_output), || input("reduce"));

    for (size, allowance) in [(2, 5), (1, 1), (5000, 5)] {
        let expected = fitting(outcome_row(rule::decide(words, size, allowance)));
        let found = engine::decide_into(words, (size, allowance), row_len, LENT);
        tally.compare(&expected, &found, || input("decide"));
    }
}
