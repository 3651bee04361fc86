//! The program `probe_list`.

use model::planted::text::probe_list::{output_with, ProbeTextFault};
use model::random::{crowded_sheet, sheet_input, spelled, Rng};
use model::text::probe_list::output;

use super::super::{catch, names};
use super::{after, count_length, printed, refusals, LENGTH};
use crate::findings::Findings;
use crate::play::Part;

const LINES: &str =
    "probe_list, 0 no node may stop, 1 some node may stop, 2 refused, 3 some event is optional";
const REFUSALS: &str = "probe_list, the refusals";
const VERSION: &str = "probe_list, by the version";
const ORDER: &str = "probe_list, 0 every list ascends by number, 1 some list does not";
const PROBES: &str = "probe_list, at most 1 probe at a node (0), up to 9 (1), 10 and more (2)";

pub const PART: Part = Part {
    name: "probe_list text",
    rounds: 2_400,
    findings,
    round,
    demands: |_| {},
};

fn findings() -> Findings {
    let groups = vec![
        (LINES, (0..=3).collect()),
        (REFUSALS, refusals()),
        (VERSION, vec![1, 2]),
        (LENGTH, vec![0, 1, 2]),
        (PROBES, vec![0, 1, 2]),
        (ORDER, vec![0, 1]),
    ];
    Findings::new(groups, names(ProbeTextFault::ALL))
}

/// An input: a sheet with many probes, or as for `show`.
fn input_of(rng: &mut Rng, round: u64) -> Vec<u8> {
    match round % 40 {
        39 => {
            let sheet = crowded_sheet(rng);
            spelled(rng, &sheet)
        }
        _ => sheet_input(rng, round),
    }
}

fn round(rng: &mut Rng, round: u64, findings: &mut Findings) {
    let input = input_of(rng, round);
    let ours = printed("probe_list", &[], &input, rng.one_in(8));
    let model = output(&input);
    findings.compared(ours == model, || {
        format!("input {input:?}: model {model:?}, program {ours:?}")
    });
    count(findings, &input, &model);
    catch(findings, ProbeTextFault::ALL, |fault| {
        output_with(fault, &input) != ours
    });
}

fn count(findings: &mut Findings, input: &[u8], text: &str) {
    count_length(findings, input);
    if let Some(number) = after(text, "sheet refused ") {
        findings.count(LINES, 2);
        findings.count(REFUSALS, number);
        return;
    }
    findings.count(VERSION, input[4].into());
    findings.count(LINES, u64::from(text.contains(" may stop\n")));
    if text.contains(" optional ") {
        findings.count(LINES, 3);
    }
    let most = text.lines().map(|line| line.matches('(').count()).max();
    let class = match most.unwrap_or(0) {
        0..=1 => 0,
        2..=9 => 1,
        _ => 2,
    };
    findings.count(PROBES, class);
    let by_number = output_with(ProbeTextFault::ByNumber, input);
    findings.count(ORDER, u64::from(by_number != text));
}
