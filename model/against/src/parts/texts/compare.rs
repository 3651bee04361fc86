//! The program `compare`.

use model::planted::text::compare::{output_with, TextFault};
use model::random::{
    damaged, deep_pair, pair, program_input, refusing_pair, spelled, Rng, AIMS_READ,
};
use model::text::compare::output;

use super::super::{catch, names};
use super::{after, count_length, count_versions, printed, refusals, LENGTH, VERSIONS};
use crate::findings::Findings;
use crate::play::Part;

const LINES: &str = "compare, 0 refines, 1 stray, 2 refused, 3 reference refused, \
    4 device refused, 5 unequal events, 6 unequal codes";
const MINE: &str = "compare, the refusals of the reference";
const THEIRS: &str = "compare, the refusals of the device";
const STRAYS: &str = "compare, strays at d 0 (0), 1 to 9 (1), 10 to 99 (2), 100 and more (3)";
const NAMED: &str = "compare, 0 the lowest probe that is missed is named, \
    1 another with the acceptance that misses that one, 2 with another acceptance";
const REFUSALS: &str = "compare, refusals at d 0 (0), 1 to 9 (1), 10 to 99 (2), 100 and more (3)";

pub const PART: Part = Part {
    name: "compare text",
    rounds: 6_400,
    findings,
    round,
    demands: |_| {},
};

fn findings() -> Findings {
    let groups = vec![
        (LINES, (0..=6).collect()),
        (MINE, refusals()),
        (THEIRS, refusals()),
        (VERSIONS, (0..=3).collect()),
        (LENGTH, vec![0, 1, 2]),
        (STRAYS, vec![0, 1, 2, 3]),
        (REFUSALS, vec![0, 1, 2, 3]),
        (NAMED, vec![0, 1, 2]),
    ];
    Findings::new(groups, names(TextFault::ALL))
}

/// An input: a pair far apart, a few bytes of noise, each refusal of a sheet in turn as the
/// reference's and as the device's, a pair whose refusal shows the order of the probes, or any other.
fn input_of(rng: &mut Rng, round: u64) -> Vec<u8> {
    let aim = AIMS_READ[(round / 8) as usize % AIMS_READ.len()];
    let (reference, device) = match round % 8 {
        0 => deep_pair(rng),
        1 => return (0..rng.below(12)).map(|_| rng.byte()).collect(),
        2 | 3 => pair(rng),
        7 if round % 16 == 7 => refusing_pair(rng),
        _ => return program_input(rng),
    };
    let (mut first, mut second) = (spelled(rng, &reference), spelled(rng, &device));
    match round % 8 {
        2 => first = damaged(rng, aim),
        3 => second = damaged(rng, aim),
        _ => {}
    }
    [first, second].concat()
}

fn round(rng: &mut Rng, round: u64, findings: &mut Findings) {
    let input = input_of(rng, round);
    let ours = printed("compare", &[], &input, rng.one_in(8));
    let model = output(&input);
    findings.compared(ours == model, || {
        format!("input {input:?}: model {model:?}, program {ours:?}")
    });
    count(findings, &input, &model);
    catch(findings, TextFault::ALL, |fault| {
        output_with(fault, &input) != ours
    });
}

fn count(findings: &mut Findings, input: &[u8], text: &str) {
    let has = |words: &str| text.lines().any(|line| line.starts_with(words));
    let class = [
        "refines",
        "stray",
        "refused",
        "reference refused",
        "device refused",
        "comparison refused 11",
        "comparison refused 19",
    ];
    if let Some(class) = class.iter().position(|words| has(words)) {
        findings.count(LINES, class as u64);
        if class < 3 {
            count_versions(findings, input);
        }
    }
    count_length(findings, input);
    count_numbers(findings, text);
    if has("refused") {
        findings.count(NAMED, renamed(input, text));
    }
}

/// How the line of a refusal stands beside the one that a list by number leads to.
fn renamed(input: &[u8], text: &str) -> u64 {
    let by_number = output_with(TextFault::ByNumber, input);
    let differs = |word: usize| {
        let words = [text, &by_number].map(|text| text.lines().last()?.split(' ').nth(word));
        u64::from(words[0] != words[1])
    };
    differs(1) + differs(3)
}

/// The number of a refusal, or the band of d.
fn count_numbers(findings: &mut Findings, text: &str) {
    for (words, group) in [("reference refused ", MINE), ("device refused ", THEIRS)] {
        if let Some(number) = after(text, words) {
            findings.count(group, number);
        }
    }
    let Some(d) = after(text, "violates after ") else {
        return;
    };
    let class = match d {
        0 => 0,
        1..=9 => 1,
        10..=99 => 2,
        _ => 3,
    };
    let stray = after(text, "stray ").is_some();
    findings.count(if stray { STRAYS } else { REFUSALS }, class);
}
