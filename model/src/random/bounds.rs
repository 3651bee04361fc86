//! Random numbers of nodes and lent lists for the two sheets that reach the bound, and words for
//! the program that writes them.

use super::lists::length_around;
use super::walks::{disguised, longest, no_number, padded};
use super::Rng;
use crate::sheet::MAX_NODES;

/// A number of nodes, at times one out of range.
pub fn bound_count(rng: &mut Rng) -> u8 {
    match rng.one_in(6) {
        true => no_count(rng),
        false => some_count(rng),
    }
}

/// A number of nodes in range: the least, the most, or any.
pub fn some_count(rng: &mut Rng) -> u8 {
    let count = match rng.below(8) {
        0 => 1,
        1 => 2,
        2 => MAX_NODES - 1,
        3 => MAX_NODES,
        _ => rng.range(1, MAX_NODES),
    };
    count as u8
}

/// A number of nodes out of range: 0, the next after the most, one whose low bits are in range, the
/// last, or any.
pub fn no_count(rng: &mut Rng) -> u8 {
    match rng.below(7) {
        0 | 1 => 0,
        2 => MAX_NODES as u8 + 1,
        3 | 4 => rng.pick(&[64, 128, 192]) + some_count(rng),
        5 => u8::MAX,
        _ => rng.range(MAX_NODES + 1, u8::MAX.into()) as u8,
    }
}

/// The lengths of two lent lists for so many nodes, in range or not: each exact or longer, around
/// the bytes of its sheet, or so long that its low bits are less than these.
pub fn bound_places(rng: &mut Rng, p: u8, q: u8) -> (usize, usize) {
    let reference = places(rng, 7 * usize::from(p) + 5);
    let device = places(rng, 5 * usize::from(q) + 7);
    (reference, device)
}

/// The length of one lent list.
fn places(rng: &mut Rng, bytes: usize) -> usize {
    match rng.below(24) {
        0 => (1 << 16) + rng.below(bytes),
        1 => (1 << 8) + rng.below(bytes),
        2..=11 => bytes + rng.pick(&[0, 0, 1, 2, 30, 3_000]),
        _ => length_around(rng, bytes),
    }
}

/// The last words that ask for something.
const ASKED: [&str; 3] = ["lines", "reference", "device"];

/// The words of a call of `bound_pair`: in every other round each two numbers of nodes in turn,
/// with each last word in turn; else good words, a wrong number or two, a wrong last word, or
/// another number of words.
pub fn bound_words(rng: &mut Rng, round: u64) -> Vec<String> {
    let turn = (round / 2) as usize;
    if round % 2 == 0 {
        let (p, q) = (1 + turn / MAX_NODES % MAX_NODES, 1 + turn % MAX_NODES);
        let word = ASKED[turn / (MAX_NODES * MAX_NODES) % ASKED.len()];
        return three(padded(rng, p as u64, 3), padded(rng, q as u64, 3), word);
    }
    let word = rng.pick(&ASKED);
    let (p, q) = (count_word(rng), count_word(rng));
    match rng.below(20) {
        0..=3 => other_count(rng, p, q, word),
        4..=6 => three(p, q, &wrong_word(rng, word)),
        7 => three(wrong_count(rng), q, &wrong_word(rng, word)),
        8 => three(p, wrong_count(rng), &wrong_word(rng, word)),
        9..=12 => three(wrong_count(rng), q, word),
        13..=16 => three(p, wrong_count(rng), word),
        17 => three(wrong_count(rng), wrong_count(rng), word),
        _ => three(p, q, word),
    }
}

fn three(p: String, q: String, word: &str) -> Vec<String> {
    vec![p, q, word.to_string()]
}

/// A number of nodes, at times with zeros before it, up to three digits.
fn count_word(rng: &mut Rng) -> String {
    let count = some_count(rng);
    padded(rng, count.into(), 3)
}

/// No word, one or two, at times some with blanks between them, or more than three words.
fn other_count(rng: &mut Rng, p: String, q: String, word: &str) -> Vec<String> {
    let more = rng.pick(&["", "0", "1", "lines", "x", " "]).to_string();
    let last = word.to_string();
    match rng.below(14) {
        0 | 1 => Vec::new(),
        2 => vec![last],
        3 => vec![rng.pick(&["", "1", "x"]).to_string()],
        4 => vec![format!("{p} {q} {word}")],
        5 | 6 => vec![p, q],
        7 => vec![p, last],
        8 => vec![format!("{p} {q}"), last],
        9 | 10 => vec![p, q, last, more],
        11 => vec![String::new(), p, q, last],
        12 => vec!["0".repeat(rng.range(65, 100)), p, q, last],
        _ => vec![p, q, last.clone(), more, last],
    }
}

/// A word that is no number of nodes: 0; a number above 32, or above 255, of which the low bits are
/// one; a number of nodes but for more digits; or no number.
fn wrong_count(rng: &mut Rng) -> String {
    let few = u64::from(some_count(rng));
    let width = rng.pick(&[5, 10, 20, 64]);
    match rng.below(30) {
        0 | 1 => String::new(),
        2 | 3 => "0".repeat(rng.range(1, 3)),
        4 | 5 => rng.pick(&["33", "033"]).to_string(),
        6 => rng.range(34, 99).to_string(),
        7 => rng.range(100, 255).to_string(),
        8..=10 => (256 * rng.range(1, 3) as u64 + few).to_string(),
        11 | 12 => rng.pick(&["256", "289", "300", "512", "999"]).to_string(),
        13 | 14 => format!("{few:04}"),
        15 => rng.pick(&["0000", "1000", "1025", "9999"]).to_string(),
        16 => format!("{few:0width$}"),
        17 => ((1 << rng.pick(&[16, 32])) + few).to_string(),
        18 | 19 => longest(rng, few),
        20 => no_number(rng),
        21..=24 => {
            let marked = ["/3", "/12", "1:", "2:", "0x3", "0xA", "+5", "-1", " 3"];
            rng.pick(&marked).to_string()
        }
        _ => disguised(rng, few),
    }
}

/// A word that asks for nothing: none, one in other letters, the front of a word, a word with
/// something before it or after it, or another.
fn wrong_word(rng: &mut Rng, word: &str) -> String {
    let (first, rest) = word.split_at(1);
    let more = rng.pick(&["x", "s", " ", "\n", "0", "=", "\t", "s lines"]);
    let others = [
        "x", "sheet", "both", "--lines", "-lines", "lime", "devise", "0", "3", "help",
    ];
    match rng.below(14) {
        0 | 1 => String::new(),
        2 => word.to_uppercase(),
        3 => first.to_uppercase() + rest,
        4 | 5 => word[..rng.range(1, word.len() - 1)].to_string(),
        6 | 7 => format!("{word}{more}"),
        8 => format!("{more}{word}"),
        9 => rest.to_string(),
        10 => word.repeat(rng.range(13, 20)),
        11 => format!("{word}{}", " ".repeat(rng.range(60, 100))),
        _ => rng.pick(&others).to_string(),
    }
}
