//! The program `script_counts`.

use model::planted::text::script_counts::{output_with, ScriptTextFault};
use model::random::{script_call, Rng};
use model::text::script_counts::{output, Call};

use super::super::{catch, names};
use super::{after, count_length, count_versions, printed, refusals, LENGTH, VERSIONS};
use crate::findings::Findings;
use crate::play::Part;

const LINES: &str = "script_counts, 0 counted, 1 reference refused, 2 device refused, \
    11 unequal events, 19 unequal codes, 20 no length";
const MINE: &str = "script_counts, the refusals of the reference";
const THEIRS: &str = "script_counts, the refusals of the device";
const WORDS: &str = "script_counts refused 20, 0 no word, 1 a number up to 65535, \
    2 another number, 3 no number, 4 two words";
const EARLY: &str = "script_counts, 0 none ends early, 1 some, 2 all";
const DIGITS: &str = "script_counts, numbers of 1 to 5 digits (0), 6 to 10 (1), more (2)";

pub const PART: Part = Part {
    name: "script_counts text",
    rounds: 4_000,
    findings,
    round,
    demands: |_| {},
};

fn findings() -> Findings {
    let groups = vec![
        (LINES, vec![0, 1, 2, 11, 19, 20]),
        (MINE, refusals()),
        (THEIRS, refusals()),
        (VERSIONS, (0..=3).collect()),
        (LENGTH, vec![0, 1, 2]),
        (WORDS, (0..=4).collect()),
        (EARLY, vec![0, 1, 2]),
        (DIGITS, vec![0, 1, 2]),
    ];
    Findings::new(groups, names(ScriptTextFault::ALL))
}

fn round(rng: &mut Rng, round: u64, findings: &mut Findings) {
    let call = script_call(rng, round);
    let ours = printed("script_counts", &call.words, &call.input, rng.one_in(8));
    let model = output(&call);
    findings.compared(ours == model, || {
        format!("call {call:?}: model {model:?}, program {ours:?}")
    });
    count(findings, &call, &model);
    catch(findings, ScriptTextFault::ALL, |fault| {
        output_with(fault, &call) != ours
    });
}

fn count(findings: &mut Findings, call: &Call, text: &str) {
    count_length(findings, &call.input);
    for (class, words, group) in [
        (1, "reference refused ", MINE),
        (2, "device refused ", THEIRS),
    ] {
        if let Some(number) = after(text, words) {
            findings.count(LINES, class);
            findings.count(group, number);
        }
    }
    if let Some(number) = after(text, "scripts refused ") {
        findings.count(LINES, number);
        if number == 20 {
            findings.count(WORDS, words_class(&call.words));
        }
    }
    if text.contains("\nwalked ") {
        findings.count(LINES, 0);
        count_versions(findings, &call.input);
        count_numbers(findings, text);
    }
}

/// The class of words that are refused with 20.
fn words_class(words: &[String]) -> u64 {
    let [word] = words else {
        return if words.is_empty() { 0 } else { 4 };
    };
    let digits = word.bytes().all(|byte| byte.is_ascii_digit());
    match word.parse::<u64>() {
        Ok(0..=65_535) if digits && word.len() <= 5 => 1,
        Ok(_) if digits => 2,
        _ => 3,
    }
}

/// How many end early, and how long the numbers are.
fn count_numbers(findings: &mut Findings, text: &str) {
    let walked = after(text, "walked ").unwrap_or(0);
    let early = after(text, "ends early ").unwrap_or(0);
    findings.count(EARLY, u64::from(early > 0) + u64::from(walked == 0));
    let all = text.lines().nth(2).and_then(|line| line.rsplit(' ').next());
    let class = match all.map_or(0, str::len) {
        0..=5 => 0,
        6..=10 => 1,
        _ => 2,
    };
    findings.count(DIGITS, class);
}
