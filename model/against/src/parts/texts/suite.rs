//! The program `suite`.

use model::planted::text::suite::{output_with, SuiteTextFault};
use model::random::{damaged, deep_pair, pair, program_input, small_pair, spelled, Rng, AIMS_READ};
use model::text::suite::output;

use super::super::{catch, names};
use super::{after, count_length, count_versions, printed, refusals, LENGTH, VERSIONS};
use crate::findings::Findings;
use crate::play::Part;

const LINES: &str = "suite, 0 all pass, 1 failed, 2 reference refused, 3 device refused, \
    4 unequal events, 5 unequal codes";
const MINE: &str = "suite, the refusals of the reference";
const THEIRS: &str = "suite, the refusals of the device";
const TESTS: &str = "suite, 1 to 9 tests (0), 10 to 99 (1), 100 and more (2)";

pub const PART: Part = Part {
    name: "suite text",
    rounds: 4_000,
    findings,
    round,
    demands: |_| {},
};

fn findings() -> Findings {
    let groups = vec![
        (LINES, (0..=5).collect()),
        (MINE, refusals()),
        (THEIRS, refusals()),
        (VERSIONS, (0..=3).collect()),
        (LENGTH, vec![0, 1, 2]),
        (TESTS, vec![0, 1, 2]),
    ];
    Findings::new(groups, names(SuiteTextFault::ALL))
}

/// An input: a pair far apart or small, a few bytes, each refusal of a sheet in turn as the
/// reference's and as the device's, or any other.
fn input_of(rng: &mut Rng, round: u64) -> Vec<u8> {
    let aim = AIMS_READ[(round / 8) as usize % AIMS_READ.len()];
    let (reference, device) = match round % 8 {
        0 if round % 16 == 0 => deep_pair(rng),
        0 | 4 => small_pair(rng),
        1 => return (0..rng.below(8)).map(|_| rng.byte()).collect(),
        2 | 3 => pair(rng),
        _ => return program_input(rng),
    };
    let (mut first, mut second) = (spelled(rng, &reference), spelled(rng, &device));
    match round % 8 {
        2 => first = damaged(rng, aim),
        3 => second = damaged(rng, aim),
        _ => {}
    }
    [first, second].concat()
}

fn round(rng: &mut Rng, round: u64, findings: &mut Findings) {
    let input = input_of(rng, round);
    let ours = printed("suite", &[], &input, rng.one_in(8));
    let model = output(&input);
    findings.compared(ours == model, || {
        format!("input {input:?}: model {model:?}, program {ours:?}")
    });
    count(findings, &input, &model);
    catch(findings, SuiteTextFault::ALL, |fault| {
        output_with(fault, &input) != ours
    });
}

fn count(findings: &mut Findings, input: &[u8], text: &str) {
    count_length(findings, input);
    for (class, words, group) in [
        (2, "reference refused ", MINE),
        (3, "device refused ", THEIRS),
    ] {
        if let Some(number) = after(text, words) {
            findings.count(LINES, class);
            findings.count(group, number);
        }
    }
    match after(text, "suite refused ") {
        Some(11) => findings.count(LINES, 4),
        Some(19) => findings.count(LINES, 5),
        _ => {}
    }
    let Some(tests) = after(text, "tests ") else {
        return;
    };
    findings.count(LINES, u64::from(!text.ends_with(" all pass\n")));
    count_versions(findings, input);
    let class = match tests {
        0..=9 => 0,
        10..=99 => 1,
        _ => 2,
    };
    findings.count(TESTS, class);
}
