//! Text that is not quite decimal words, and decimal words in odd dress.

use crate::random::Random;
use crate::text::{spaced, BYTE_LIMIT, NUMBER_LIMIT};

/// What may get into a text and mostly does not belong there.
#[rustfmt::skip]
const STRAYS: [&[u8]; 22] = [
    b"\t", b"+", b"-", b"--", b"- ", b".", b",", b"x", b"e1", b"\0", b"\x0b", b"\x0c", b"\xff",
    b"\xc2\xa0", b"\xef\xbb\xbf", b" +1 ", b" -", b" 0x1 ", b" 2147483648 ", b" -2147483649 ",
    b" 99999999999999999999999999999999999999999 ", b"#",
];
/// Whole texts that are short.
const SHORT: [&str; 10] =
    ["", " ", "\n", "\r\n", " \r\n \r\n", "-", "+", "2005", "0 0 0 2005", "--1"];
/// What may stand before and after a table.
#[rustfmt::skip]
const AROUND: [(&str, &str); 34] = [
    ("", ""), ("", "\n"), ("\n", ""), ("\r\n", "\r\n"), ("   ", "   "), ("\t", ""), ("", "\t"),
    ("+", ""), ("", "."), ("", "-"), ("", " -"), ("- ", ""), ("\u{feff}", ""), ("", "\0"),
    ("", "\u{b}"), ("", "\u{c}"), ("", "\u{a0}"), ("0", ""), ("000", ""), ("-", ""), ("", " "),
    ("", " 2147483647"), ("", " 2147483648"), ("", " -2147483648"), ("", " -2147483649"),
    ("", " 00000000000000000000000000002005"), ("", " 4294967296"), ("", " ٣"),
    ("", " 18446744073709551616"), ("", " 340282366920938463463374607431768213461"),
    ("", " 1_0"), ("", " 1,0"), ("", " 1-0"), ("", " 0x10"),
];
/// What may stand between the words.
const BETWEEN: [&str; 11] = ["\n", "\r", "\r\n", "  ", " \n", "\t", ",", ", ", ";", "\u{b}", ""];

/// Writes words with any of the separators, sometimes many, and with signs
/// and zeros the reader has to take.
pub fn dress(random: &mut Random, words: &[i32]) -> Vec<u8> {
    let mut text = Vec::new();
    gap(random, &mut text, 0);
    for (index, &word) in words.iter().enumerate() {
        if index > 0 {
            gap(random, &mut text, 1);
        }
        let digits = word.unsigned_abs().to_string();
        if word < 0 || (word == 0 && random.one_in(8)) {
            text.push(b'-');
        }
        if random.one_in(8) {
            text.extend(vec![b'0'; 1 + random.below(12)]);
        }
        text.extend(digits.bytes());
    }
    gap(random, &mut text, 0);
    text
}

fn gap(random: &mut Random, text: &mut Vec<u8>, least: usize) {
    let more = if random.one_in(6) { random.below(4) } else { 0 };
    for _ in 0..least + more {
        text.push(random.pick(b"  \n\r"));
    }
}

/// Puts one thing into a text that may not belong there.
pub fn scribble(random: &mut Random, text: &mut Vec<u8>) {
    match random.below(5) {
        0 => text.truncate(random.below(text.len() + 1)),
        1 if !text.is_empty() => {
            let at = random.below(text.len());
            text[at] = random.draw() as u8;
        }
        2 if !text.is_empty() => {
            text.remove(random.below(text.len()));
        }
        _ => {
            let at = random.below(text.len() + 1);
            let stray = random.pick(&STRAYS);
            text.splice(at..at, stray.iter().copied());
        }
    }
}

/// Texts at every edge of the reader, around a table that is accepted.
pub fn edges(words: &[i32]) -> Vec<Vec<u8>> {
    let plain = spaced(words);
    let mut texts: Vec<Vec<u8>> = Vec::new();
    texts.extend(SHORT.map(|text| text.into()));
    for (before, after) in AROUND {
        texts.push(format!("{before}{plain}{after}").into());
    }
    texts.extend(BETWEEN.map(|separator| plain.replace(' ', separator).into()));
    texts.push([plain.as_bytes(), b" \xff"].concat());
    texts.extend(long_texts(&plain));
    texts.extend(many_numbers(words));
    texts
}

/// Texts about as long as they may be: padded before, after and by zeros.
fn long_texts(plain: &str) -> Vec<Vec<u8>> {
    let mut texts = Vec::new();
    for length in [BYTE_LIMIT - 1, BYTE_LIMIT, BYTE_LIMIT + 1, 2 * BYTE_LIMIT + 2, 1 << 20] {
        let padding = length - plain.len();
        texts.push(format!("{plain}{}", " ".repeat(padding)).into());
        texts.push(format!("{}{plain}", "\n".repeat(padding)).into());
        texts.push(format!("{}{plain}", "0".repeat(padding)).into());
        texts.push(" ".repeat(length).into());
        texts.push("1".repeat(length).into());
    }
    texts
}

/// About as many numbers as there may be, with and without a right trailer.
fn many_numbers(words: &[i32]) -> Vec<Vec<u8>> {
    let mut texts = Vec::new();
    for numbers in [NUMBER_LIMIT - 1, NUMBER_LIMIT, NUMBER_LIMIT + 1, 2 * NUMBER_LIMIT, 30_000] {
        texts.push("1 ".repeat(numbers).into());
        let mut padded = vec![0; numbers - words.len()];
        padded.extend(words);
        texts.push(spaced(&padded).into());
    }
    texts
}
