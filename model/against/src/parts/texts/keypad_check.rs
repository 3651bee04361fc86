//! The program `keypad_check`.

use model::planted::text::keypad_check::{output_with, KeypadTextFault};
use model::random::{keypad_call, Rng};
use model::text::keypad_check::{asked, output, Asked, Call};

use super::super::{catch, names};
use super::{after, count_length, printed_and_said, refusals, LENGTH};
use crate::findings::Findings;
use crate::play::Part;

const LINES: &str = "keypad_check, 0 good, 1 gap, 2 overlap; with a code 3, 4, 5; \
    6 sheet refused, 7 wrong use; 21, 22, 23 table refused";
const REFUSALS: &str = "keypad_check, the refusals of the sheet";
const VERSION: &str = "keypad_check, by the version of the sheet";
const RULES: &str = "keypad_check, 1 rule (0), 2 to 9 (1), 10 to 63 (2), 64 (3)";
const CODE: &str = "keypad_check, the code of an event 0 (0), 1 to 99 (1), 100 to 254 (2), 255 (3)";
const DIGITS: &str = "keypad_check, a code as it is (0), after zeros (1), in five digits (2)";
const WORDS: &str = "keypad_check, wrong use by no byte (0), a number up to 65535 (1), \
    one of five digits above (2), of more digits (3), no number (4), over 64 bytes (5), two words (6)";
const WRONG: &str =
    "keypad_check, wrong use with a table (0), a refused one (1), a refused sheet (2)";

pub const PART: Part = Part {
    name: "keypad_check text",
    rounds: 4_800,
    findings,
    round,
    demands: |_| {},
};

fn findings() -> Findings {
    let groups = vec![
        (LINES, (0..=7).chain(21..=23).collect()),
        (REFUSALS, refusals()),
        (VERSION, vec![1, 2]),
        (LENGTH, vec![0, 1, 2]),
        (RULES, (0..=3).collect()),
        (CODE, (0..=3).collect()),
        (DIGITS, vec![0, 1, 2]),
        (WORDS, (0..=6).collect()),
        (WRONG, vec![0, 1, 2]),
    ];
    Findings::new(groups, names(KeypadTextFault::ALL))
}

/// One call. Wrong use is told in one line on standard error; else nothing is said there.
fn round(rng: &mut Rng, round: u64, findings: &mut Findings) {
    let call = keypad_call(rng, round);
    let pieces = rng.one_in(8);
    let (ours, said) = printed_and_said("keypad_check", &call.words, &call.input, pieces);
    let model = output(&call);
    let lines = usize::from(asked(&call.words) == Asked::Wrong);
    let told = said.lines().count() == lines && (lines == 0 || said.ends_with('\n'));
    findings.compared(ours == model && told, || {
        format!("call {call:?}: model {model:?}, program {ours:?}, on standard error {said:?}")
    });
    count(findings, &call, &model);
    catch(findings, KeypadTextFault::ALL, |fault| {
        output_with(fault, &call) != ours
    });
}

fn count(findings: &mut Findings, call: &Call, text: &str) {
    count_length(findings, &call.input);
    let asked = asked(&call.words);
    if asked == Asked::Wrong {
        findings.count(LINES, 7);
        findings.count(WORDS, words_class(&call.words));
        findings.count(WRONG, wrong_class(call));
        return;
    }
    if let Some(number) = after(text, "sheet refused ") {
        findings.count(LINES, 6);
        findings.count(REFUSALS, number);
        return;
    }
    findings.count(VERSION, u64::from(call.input[4]));
    if let Some(number) = after(text, "table refused ") {
        findings.count(LINES, number);
        return;
    }
    let answers = ["good", "gap", "overlap"];
    let line = text.lines().nth(2).unwrap_or("");
    if let Some(class) = answers.iter().position(|word| line.starts_with(word)) {
        let with_code = 3 * u64::from(asked != Asked::Table);
        findings.count(LINES, class as u64 + with_code);
    }
    let class = match after(text, "table ").unwrap_or(0) {
        1 => 0,
        2..=9 => 1,
        10..=63 => 2,
        _ => 3,
    };
    findings.count(RULES, class);
    if let Some(code) = after(text, "code ") {
        let class = match code {
            0 => 0,
            1..=99 => 1,
            100..=254 => 2,
            _ => 3,
        };
        findings.count(CODE, class);
        let class = match call.words[0].len() {
            length if length == code.to_string().len() => 0,
            5 => 2,
            _ => 1,
        };
        findings.count(DIGITS, class);
    }
}

/// The class of words that are wrong use.
fn words_class(words: &[String]) -> u64 {
    let [word] = words else {
        return 6;
    };
    let digits = word.bytes().all(|byte| byte.is_ascii_digit());
    match (word.len(), word.parse::<u64>()) {
        (0, _) => 0,
        (65.., _) => 5,
        (6.., Ok(_)) if digits => 3,
        (_, Ok(0..=65_535)) if digits => 1,
        (_, Ok(_)) if digits => 2,
        _ => 4,
    }
}

/// What wrong use comes with.
fn wrong_class(call: &Call) -> u64 {
    let right = Call {
        words: Vec::new(),
        ..call.clone()
    };
    let text = output(&right);
    match after(&text, "sheet refused ") {
        Some(_) => 2,
        None => u64::from(text.contains("\ntable refused ")),
    }
}
