//! The program `bound_pair`.

use model::planted::text::bound_pair::{output_with, BoundTextFault};
use model::random::{bound_words, Rng};
use model::text::bound_pair::{asked, count as count_of, heard, output, Asked, Written};

use super::super::{catch, names};
use super::bytes_and_said;
use crate::findings::Findings;
use crate::play::Part;

const LINES: &str = "bound_pair, 0 lines, 1 reference, 2 device; refused for these 3, 4, 5; \
    6 wrong WORD";
const NODES: &str = "bound_pair, nodes of each sheet 1 (0), 2 to 9 (1), 10 to 31 (2), 32 (3)";
const TEST: &str = "bound_pair, test 0 to 9 (0), 10 to 99 (1), higher (2)";
const ORDER: &str = "bound_pair, p below q (0), p equals q (1), p above q (2)";
const DIGITS: &str = "bound_pair, number as it is (0), after a zero (1), so in three digits (2)";
const WHICH: &str = "bound_pair refused, by P (1), by Q (2), by both (3)";
const WRONG: &str =
    "bound_pair refused, word no byte (0), 0 (1), 33 (2), up to 255 (3), more with \
    the low byte in range (4), more (5), four digits (6), more digits (7), no number (8), \
    over 64 bytes (9)";
const COUNT: &str = "bound_pair, wrong WORD, 0, 1, 2, 3 words, more (4)";
const WORD: &str =
    "bound_pair, wrong WORD of three words no byte (0), large letters (1), front of a \
    word (2), a word and more (3), over 64 bytes (4), other (5)";
const WITH: &str = "bound_pair, wrong WORD of three words with good numbers (0), refused ones (1)";
const INPUT: &str = "bound_pair, without input (0), with some (1)";

pub const PART: Part = Part {
    name: "bound_pair text",
    rounds: 6_400,
    findings,
    round,
    demands: |_| {},
};

fn findings() -> Findings {
    let groups = vec![
        (LINES, (0..=6).collect()),
        (NODES, (0..=3).collect()),
        (TEST, vec![0, 1, 2]),
        (ORDER, vec![0, 1, 2]),
        (DIGITS, vec![0, 1, 2]),
        (WHICH, vec![1, 2, 3]),
        (WRONG, (0..=9).collect()),
        (COUNT, (0..=4).collect()),
        (WORD, (0..=5).collect()),
        (WITH, vec![0, 1]),
        (INPUT, vec![0, 1]),
    ];
    Findings::new(groups, names(BoundTextFault::ALL))
}

/// One call. The program takes no input; what it gets in some calls changes nothing.
fn round(rng: &mut Rng, round: u64, findings: &mut Findings) {
    let words = bound_words(rng, round);
    let input: Vec<u8> = match rng.one_in(8) {
        true => (0..rng.range(1, 60)).map(|_| rng.byte()).collect(),
        false => Vec::new(),
    };
    let (printed, said) = bytes_and_said("bound_pair", &words, &input, false);
    let ours = Written { printed, said };
    let model = output(&words);
    findings.compared(ours == model, || {
        let (model, ours) = (shown(&model), shown(&ours));
        format!("words {words:?}: model {model}; program {ours}")
    });
    findings.count(INPUT, u64::from(!input.is_empty()));
    count(findings, &words);
    catch(findings, BoundTextFault::ALL, |fault| {
        output_with(fault, &words) != ours
    });
}

/// What is written, each byte that is no letter by its number.
fn shown(written: &Written) -> String {
    let (printed, said) = (written.printed.escape_ascii(), written.said.escape_ascii());
    format!("\"{printed}\", on standard error \"{said}\"")
}

/// The classes of some words.
fn count(findings: &mut Findings, words: &[String]) {
    let heard: Vec<&str> = words.iter().map(|word| heard(word)).collect();
    let [p, q, word] = heard[..] else {
        findings.count(LINES, 6);
        findings.count(COUNT, words.len().min(4) as u64);
        return;
    };
    let (first, second) = (count_of(p), count_of(q));
    let wrong = u64::from(first.is_none()) + 2 * u64::from(second.is_none());
    let Some(asked) = asked(word) else {
        findings.count(LINES, 6);
        findings.count(COUNT, 3);
        findings.count(WORD, word_class(&words[2]));
        findings.count(WITH, u64::from(wrong != 0));
        return;
    };
    let kind = match asked {
        Asked::Lines => 0,
        Asked::Reference => 1,
        Asked::Device => 2,
    };
    findings.count(LINES, kind + 3 * u64::from(wrong != 0));
    if let (Some(first), Some(second)) = (first, second) {
        count_pair(findings, (first, second), (p, q));
        return;
    }
    findings.count(WHICH, wrong);
    let both = [(first, &words[0]), (second, &words[1])];
    for (_, word) in both.iter().filter(|(count, _)| count.is_none()) {
        findings.count(WRONG, wrong_class(word));
    }
}

/// The classes of two numbers of nodes, which were typed as `typed`.
fn count_pair(findings: &mut Findings, (p, q): (u8, u8), typed: (&str, &str)) {
    for (nodes, word) in [(p, typed.0), (q, typed.1)] {
        let class = match nodes {
            1 => 0,
            2..=9 => 1,
            10..=31 => 2,
            _ => 3,
        };
        findings.count(NODES, class);
        let class = match word.len() {
            length if length == nodes.to_string().len() => 0,
            length => 1 + u64::from(length == 3),
        };
        findings.count(DIGITS, class);
    }
    let class = match u16::from(p) * u16::from(q) - 1 {
        0..=9 => 0,
        10..=99 => 1,
        _ => 2,
    };
    findings.count(TEST, class);
    findings.count(ORDER, 1 + u64::from(p > q) - u64::from(p < q));
}

/// The class of a word that is no number of nodes.
fn wrong_class(word: &str) -> u64 {
    let digits = word.bytes().all(|byte| byte.is_ascii_digit());
    match (word.len(), word.parse::<u16>()) {
        (0, _) => 0,
        (65.., _) => 9,
        _ if !digits => 8,
        (4, _) => 6,
        (5.., _) => 7,
        (_, Ok(0)) => 1,
        (_, Ok(33)) => 2,
        (_, Ok(..=255)) => 3,
        (_, Ok(value)) if (1..=32).contains(&(value % 256)) => 4,
        _ => 5,
    }
}

/// The class of a last word that asks for nothing.
fn word_class(word: &str) -> u64 {
    let names = ["lines", "reference", "device"];
    match word.len() {
        0 => 0,
        65.. => 4,
        _ if names.contains(&&word.to_lowercase()[..]) => 1,
        _ if names.iter().any(|name| name.starts_with(word)) => 2,
        _ if names.iter().any(|name| word.starts_with(name)) => 3,
        _ => 5,
    }
}
