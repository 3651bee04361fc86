//! The program `walk`.

use model::planted::text::walk::{output_with, WalkTextFault};
use model::random::{walk_call, Rng};
use model::text::walk::{asked, output, Call};

use super::super::{catch, names};
use super::{after, count_length, printed_and_said, refusals, LENGTH};
use crate::findings::Findings;
use crate::play::Part;

const LINES: &str =
    "walk, 0 as long as the wish, 1 ended early, 2 sheet refused, 27 and 28 refused";
const REFUSALS: &str = "walk, the refusals of the sheet";
const OTHERWISE: &str = "walk, sheet refused with good words (0), with words that get 27, 28";
const LONGER: &str = "walk, input over 4096 bytes refused with 1 (0), with another number (1)";
const VERSION: &str = "walk, by the version of the sheet";
const WALKED: &str = "walk, 0 (0), 1 (1), 2 to 9 (2), 10 to 99 (3), 100 to 999 (4), \
    1000 to 4095 (5), 4096 (6) events";
const WISHED: &str = "walk, so many wished";
const EARLY: &str = "walk, ended early after 0 (0), 1 to 9 (1), 10 to 99 (2), more (3) events";
const DIGITS: &str = "walk of 1 event or more, no event of two digits (0), some (1)";
const SEED: &str = "walk, seed 1 (0), to 65535 (1), below 2 to the 31 (2), \
    below 2 to the 32 - 1 (3), it (4)";
const SEED_DIGITS: &str = "walk, seed as it is (0), after zeros (1), so in ten digits (2)";
const WISH_DIGITS: &str = "walk, length as it is (0), after zeros (1), so in five digits (2)";
const COUNT: &str = "walk refused 27, 0, 1, 2, 3 words";
const WRONG_SEED: &str = "walk refused 27, seed no byte (0), 0 (1), 2 to the 32 (2), more in ten \
    digits (3), eleven digits (4), more digits (5), no number (6), over 64 bytes (7)";
const BOTH: &str = "walk refused 27 by the seed, the length is one (0), is none (1)";
const WRONG_LENGTH: &str = "walk refused 28, length no byte (0), 4097 (1), to 65535 (2), more in \
    five digits (3), six digits (4), more digits (5), no number (6), over 64 bytes (7)";

pub const PART: Part = Part {
    name: "walk text",
    rounds: 6_400,
    findings,
    round,
    demands: |_| {},
};

fn findings() -> Findings {
    let groups = vec![
        (LINES, vec![0, 1, 2, 27, 28]),
        (REFUSALS, refusals()),
        (OTHERWISE, vec![0, 27, 28]),
        (LENGTH, vec![0, 1, 2]),
        (LONGER, vec![0, 1]),
        (VERSION, vec![1, 2]),
        (WALKED, (0..=6).collect()),
        (WISHED, (0..=6).collect()),
        (EARLY, (0..=3).collect()),
        (DIGITS, vec![0, 1]),
        (SEED, (0..=4).collect()),
        (SEED_DIGITS, vec![0, 1, 2]),
        (WISH_DIGITS, vec![0, 1, 2]),
        (COUNT, (0..=3).collect()),
        (WRONG_SEED, (0..=7).collect()),
        (BOTH, vec![0, 1]),
        (WRONG_LENGTH, (0..=7).collect()),
    ];
    Findings::new(groups, names(WalkTextFault::ALL))
}

/// One call. Nothing is said on standard error.
fn round(rng: &mut Rng, round: u64, findings: &mut Findings) {
    let call = walk_call(rng, round);
    let pieces = rng.one_in(8);
    let (ours, said) = printed_and_said("walk", &call.words, &call.input, pieces);
    let model = output(&call);
    findings.compared(ours == model && said.is_empty(), || {
        format!("call {call:?}: model {model:?}, program {ours:?}, on standard error {said:?}")
    });
    count(findings, &call, &model);
    catch(findings, WalkTextFault::ALL, |fault| {
        output_with(fault, &call) != ours
    });
}

fn count(findings: &mut Findings, call: &Call, text: &str) {
    count_length(findings, &call.input);
    let asked = asked(&call.words);
    if let Some(number) = after(text, "sheet refused ") {
        findings.count(LINES, 2);
        findings.count(REFUSALS, number);
        findings.count(OTHERWISE, asked.err().unwrap_or(0).into());
        if call.input.len() > 4_096 {
            findings.count(LONGER, u64::from(number != 1));
        }
        return;
    }
    findings.count(VERSION, call.input[4].into());
    match asked {
        Ok((seed, wish)) => count_walk(findings, call, text, seed, wish),
        Err(number) => {
            findings.count(LINES, number.into());
            count_words(findings, &call.words, number);
        }
    }
}

/// The classes of a walk.
fn count_walk(findings: &mut Findings, call: &Call, text: &str, seed: u32, wish: u16) {
    let events = after(text, "walked ").unwrap_or(0);
    let wished = u64::from(wish);
    findings.count(LINES, u64::from(events < wished));
    findings.count(WALKED, events_class(events));
    findings.count(WISHED, events_class(wished));
    if events < wished {
        let class = match events {
            0 => 0,
            1..=9 => 1,
            10..=99 => 2,
            _ => 3,
        };
        findings.count(EARLY, class);
    }
    if events > 0 {
        let trace = text.lines().last().unwrap_or("");
        let far = trace.split(' ').skip(1).any(|event| event.len() > 1);
        findings.count(DIGITS, u64::from(far));
    }
    let class = match seed {
        1 => 0,
        u32::MAX => 4,
        0..=65_535 => 1,
        _ => 2 + u64::from(seed >> 31),
    };
    findings.count(SEED, class);
    let digits = digits_class(&call.words[0], seed, 10);
    findings.count(SEED_DIGITS, digits);
    let digits = digits_class(&call.words[1], wish.into(), 5);
    findings.count(WISH_DIGITS, digits);
}

/// How a number was typed: as it is (0), after zeros (1), so in as many digits as are read (2).
fn digits_class(word: &str, number: u32, most: usize) -> u64 {
    match word.len() {
        length if length == number.to_string().len() => 0,
        length => 1 + u64::from(length == most),
    }
}

/// The class of a number of events.
fn events_class(events: u64) -> u64 {
    match events {
        0 | 1 => events,
        2..=9 => 2,
        10..=99 => 3,
        100..=999 => 4,
        1_000..=4_095 => 5,
        _ => 6,
    }
}

/// The classes of refused words.
fn count_words(findings: &mut Findings, words: &[String], number: u8) {
    if number == 28 {
        let class = word_class(&words[1], 5, |value| match value {
            4_097 => 1,
            ..=65_535 => 2,
            _ => 3,
        });
        findings.count(WRONG_LENGTH, class);
        return;
    }
    findings.count(COUNT, words.len() as u64);
    if let [seed, length] = words {
        let class = word_class(seed, 10, |value| match value {
            0 => 1,
            4_294_967_296 => 2,
            _ => 3,
        });
        findings.count(WRONG_SEED, class);
        let right = ["1".to_string(), length.clone()];
        findings.count(BOTH, u64::from(asked(&right).is_err()));
    }
}

/// The class of a word that is refused: no byte (0), one to `most` digits (as `few` says), one
/// digit more (4), more digits (5), no number (6), over 64 bytes (7).
fn word_class(word: &str, most: usize, few: impl Fn(u64) -> u64) -> u64 {
    let digits = word.bytes().all(|byte| byte.is_ascii_digit());
    match word.len() {
        0 => 0,
        65.. => 7,
        _ if !digits => 6,
        length if length <= most => few(word.parse().unwrap_or(0)),
        length if length == most + 1 => 4,
        _ => 5,
    }
}
