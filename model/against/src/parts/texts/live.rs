//! The program `live`.

use std::fs::{create_dir_all, write};

use model::planted::text::live::{output_with, LiveFault};
use model::random::{live_call, Rng};
use model::text::live::{output, Call};

use super::super::{catch, names};
use super::{after, printed, refusals, target};
use crate::findings::Findings;
use crate::play::Part;

const LINES: &str =
    "live, 0 passed, 1 stray, 2 refused, 3 input ended, 4 test refused, 5 inconclusive";
const REPORTS: &str = "live, runs with a report refused";
const REFUSALS: &str = "live, the refusals of the reference";
const VERSION: &str = "live, by the version of the reference";
const ORDER: &str = "live, 0 every offer as with a list by number, 1 some offer otherwise";
const BLOCKED: &str = "live, trace-only runs blocked, 0 with k 0, 1 at another depth k, \
    2 below it at a node that may stop, 3 below it at another";
const DEPTH: &str = "live, accepted reports 0 (0), 1 to 9 (1), 10 and more (2)";

pub const PART: Part = Part {
    name: "live text",
    rounds: 4_500,
    findings,
    round,
    demands: |_| {},
};

fn findings() -> Findings {
    let groups = vec![
        (LINES, (0..=5).collect()),
        (REPORTS, vec![15, 17]),
        (REFUSALS, refusals()),
        (VERSION, vec![1, 2]),
        (DEPTH, vec![0, 1, 2]),
        (ORDER, vec![0, 1]),
        (BLOCKED, vec![0, 1, 2, 3]),
    ];
    Findings::new(groups, names(LiveFault::ALL))
}

fn round(rng: &mut Rng, round: u64, findings: &mut Findings) {
    let call = live_call(rng, round);
    let ours = run(&call, rng.one_in(8));
    let model = output(&call);
    findings.compared(ours == model, || {
        format!("call {call:?}: model {model:?}, program {ours:?}")
    });
    count(findings, &call, &model);
    catch(findings, LiveFault::ALL, |fault| {
        output_with(fault, &call) != ours
    });
}

/// What the program writes; the reference stands in a file.
fn run(call: &Call, pieces: bool) -> String {
    let folder = target().join("random");
    let file = folder.join("live.sheet");
    if let Err(error) = create_dir_all(&folder).and_then(|()| write(&file, &call.file)) {
        return format!("no file: {error}");
    }
    let mut words = vec![file.display().to_string()];
    words.extend_from_slice(&call.words);
    printed("live", &words, &call.typed, pieces)
}

fn count(findings: &mut Findings, call: &Call, text: &str) {
    if let Some(number) = after(text, "reference refused ") {
        findings.count(REFUSALS, number);
        return;
    }
    if !text.starts_with("test refused ") {
        findings.count(VERSION, call.file[4].into());
    }
    let ends = [
        "run passed",
        "run failed stray",
        "run failed refused",
        "input ended",
        "test refused 14",
        "run inconclusive",
    ];
    let last = text.lines().last().unwrap_or("");
    if let Some(class) = ends.iter().position(|end| last.starts_with(end)) {
        findings.count(LINES, class as u64);
    }
    for number in [15, 17] {
        if text.contains(&format!("report refused {number} ")) {
            findings.count(REPORTS, number);
        }
    }
    let lines = |words: &str| text.lines().filter(|line| line.starts_with(words)).count();
    let class = match (lines("offer") + lines("run")).saturating_sub(lines("report") + 1) {
        0 => 0,
        1..=9 => 1,
        _ => 2,
    };
    findings.count(DEPTH, class);
    if text.contains("offer") {
        let by_number = output_with(LiveFault::ByNumber, call);
        findings.count(ORDER, u64::from(by_number != text));
    }
    if let Some(class) = blocked_class(call, text) {
        findings.count(BLOCKED, class);
    }
}

/// Where a trace-only run was blocked: found by the faults that show there and nowhere else.
fn blocked_class(call: &Call, text: &str) -> Option<u64> {
    let shows = |fault| output_with(fault, call) != text;
    if text.ends_with("run inconclusive\n") {
        let stops = shows(LiveFault::InconclusiveUnlessStops);
        return Some(3 - u64::from(stops));
    }
    let at_k = shows(LiveFault::InconclusiveAtK);
    at_k.then(|| u64::from(!shows(LiveFault::InconclusiveAtZero)))
}
