//! The programs `reduce` and `decide` on texts and arguments. Each run is a
//! process, so there are thousands here and not more.

use outside::claims::{any_claim, any_quantifiers, joined_claim, set_quantifiers, Words};
use outside::damage::damage;
use outside::draft::Draft;
use outside::random::Random;
use outside::scribble::{dress, edges, scribble};
use outside::text::{decide_prints, reduce_prints, spaced, LENT_WORDS};

use super::examples::{EVEN, ONE_ELEMENT};
use super::limits::{largest, of_nodes};
use super::tally::Tally;
use crate::engine::Programs;

/// Arguments of `decide`: numbers in range and past it, and no numbers.
#[rustfmt::skip]
const ARGUMENTS: [&[u8]; 36] = [
    b"0", b"1", b"3", b"007", b"00", b"4096", b"4097", b"004096", b"4294967295", b"4294967296",
    b"4294967299", b"18446744073709551615", b"18446744073709551616", b"18446744073709551619",
    b"99999999999999999999999999999999999999999999", b"+1", b"-1", b"-0", b"--1", b"-", b"+",
    b"1.0", b"1.", b".1", b"1e1", b"0x1", b"1_0", b"1,0", b"", b" 1", b"1 ", b"1\n", b"\t1",
    b"one", b"\xff", b"\xd9\xa3",
];

fn reduce(tally: &mut Tally, programs: &Programs, text: &[u8]) {
    let expected = Ok(reduce_prints(text));
    let found = programs.run("reduce", &[], text);
    tally.compare(&expected, &found, || format!("reduce of text \"{}\"", text.escape_ascii()));
}

fn decide(tally: &mut Tally, programs: &Programs, arguments: &[&[u8]], text: &[u8]) {
    let arguments: Vec<Vec<u8>> = arguments.iter().map(|argument| argument.to_vec()).collect();
    let expected = Ok(decide_prints(&arguments, text));
    let found = programs.run("decide", &arguments, text);
    tally.compare(&expected, &found, || {
        let shown: Vec<String> =
            arguments.iter().map(|argument| format!("\"{}\"", argument.escape_ascii())).collect();
        format!("decide {} of text \"{}\"", shown.join(" "), text.escape_ascii())
    });
}

/// Texts at the edges of the reader.
pub fn edge_texts(tally: &mut Tally, programs: &Programs) {
    for words in [&ONE_ELEMENT[..], &EVEN[..]] {
        for text in edges(words) {
            reduce(tally, programs, &text);
            decide(tally, programs, &[b"2", b"100"], &text);
        }
    }
}

/// Random tables in random dress, whole, damaged and scribbled on.
pub fn random_texts(tally: &mut Tally, programs: &Programs) {
    let mut random = Random::new(41);
    for round in 0..1_200 {
        let (sets, others) = (random.below(5), random.below(3));
        let quantifiers = any_quantifiers(&mut random, sets, others);
        let nodes = 2 + random.below(20);
        let mut words = any_claim(&mut random, &quantifiers, nodes, Words::Extreme);
        if round % 3 == 1 {
            damage(&mut random, &mut words);
        }
        let mut text = dress(&mut random, &words);
        if round % 3 == 2 {
            scribble(&mut random, &mut text);
        }
        reduce(tally, programs, &text);
    }
    for round in 0..1_200 {
        let sets = random.below(4);
        let quantifiers = set_quantifiers(&mut random, sets);
        let mut words = joined_claim(&mut random, &quantifiers, 4);
        if round % 4 == 1 {
            damage(&mut random, &mut words);
        }
        let mut text = dress(&mut random, &words);
        if round % 4 == 2 {
            scribble(&mut random, &mut text);
        }
        let size = random.pick(&[0, 1, 2, 3, 4, 4096, 4097]).to_string();
        let allowance = random.pick(&[0u64, 1, 3, 50, 1000]).to_string();
        decide(tally, programs, &[size.as_bytes(), allowance.as_bytes()], &text);
    }
}

/// Arguments of `decide`, right and damaged, in either place.
pub fn arguments(tally: &mut Tally, programs: &Programs) {
    let text = spaced(&EVEN);
    let mut run = |arguments: &[&[u8]]| decide(tally, programs, arguments, text.as_bytes());
    let zeros = [vec![b'0'; 300], b"3".to_vec()].concat();
    for value in ARGUMENTS.into_iter().chain([&zeros[..]]) {
        run(&[value, b"100"]);
        run(&[b"1", value]);
        run(&[value, value]);
        run(&[value]);
        run(&[value, b"100", b"1"]);
        run(&[b"1", b"100", value]);
    }
    run(&[]);
    run(&[b"1", b"2", b"3", b"4"]);
    // Damaged arguments stand before damaged texts, with the same answer.
    decide(tally, programs, &[b"x", b"1"], b"x");
    decide(tally, programs, &[b"1", b"1"], b"x");
    decide(tally, programs, &[b"x", b"1"], b"");
}

/// Emissions of exactly the words `reduce` lends, one less and one more,
/// and the longest tables either program can be given.
pub fn long_outputs(tally: &mut Tally, programs: &Programs) {
    for length in LENT_WORDS - 3..=LENT_WORDS + 3 {
        let words = emitting(length);
        let emitted = outside::emit::reduce(&words, usize::MAX).map(|emission| emission.len());
        tally.compare(&Ok(length), &emitted, || format!("our emission of {length} words"));
        reduce(tally, programs, spaced(&words).as_bytes());
    }
    for words in [largest(6), largest(8), of_nodes(1024), of_nodes(1025)] {
        reduce(tally, programs, spaced(&words).as_bytes());
        decide(tally, programs, &[b"1", b"70"], spaced(&words).as_bytes());
    }
}

/// A claim with an emission of exactly so many words. Its quantifiers make
/// up what three words per node cannot, its cardinalities come to 31 nodes
/// each, and constants fill up the rest.
pub fn emitting(length: usize) -> Vec<i32> {
    let mut quantifiers = vec![3, 4, 3, 4];
    // Four sets become 2 + 4 + 8 + 16 counts.
    let node_words = |others: usize| length - 4 - 30 - others;
    while node_words(quantifiers.len() - 4) % 3 != 0 {
        quantifiers.push(5);
    }
    let wanted = node_words(quantifiers.len() - 4) / 3;
    let mut draft = Draft::new(&quantifiers);
    let whole = draft.put(3, 0, 0);
    // 6 x 15 constraint nodes, two for-alls, one equal at the end.
    let mut left = wanted - 6 * 15 - 2 - 1;
    while left > 31 {
        draft.put(16, whole, 0);
        left -= 31;
    }
    let mut term = whole;
    for _ in 0..left {
        term = draft.put(11, 7, 0);
    }
    draft.put(20, term, term);
    draft.finished()
}
