//! The program `show`.

use model::planted::text::show::{output_with, ShowFault};
use model::random::{sheet_input, Rng};
use model::text::show::output;

use super::super::{catch, names};
use super::{after, count_length, printed, refusals, LENGTH};
use crate::findings::Findings;
use crate::play::Part;

const LINES: &str = "show, 0 no node may stop, 1 some node may stop, 2 refused";
const REFUSALS: &str = "show, the refusals";
const CODES: &str =
    "show, version 1 (0), version 2 without lines of codes (1), with less than 12 (2), with 12 (3)";
const NODES: &str = "show, 1 to 9 nodes (0), 10 and more (1), 32 (2)";

pub const PART: Part = Part {
    name: "show text",
    rounds: 3_200,
    findings,
    round,
    demands: |_| {},
};

fn findings() -> Findings {
    let groups = vec![
        (LINES, (0..=2).collect()),
        (REFUSALS, refusals()),
        (CODES, (0..=3).collect()),
        (LENGTH, vec![0, 1, 2]),
        (NODES, vec![0, 1, 2]),
    ];
    Findings::new(groups, names(ShowFault::ALL))
}

fn round(rng: &mut Rng, round: u64, findings: &mut Findings) {
    let input = sheet_input(rng, round);
    let ours = printed("show", &[], &input, rng.one_in(8));
    let model = output(&input);
    findings.compared(ours == model, || {
        format!("input {input:?}: model {model:?}, program {ours:?}")
    });
    count(findings, &input, &model);
    catch(findings, ShowFault::ALL, |fault| {
        output_with(fault, &input) != ours
    });
}

fn count(findings: &mut Findings, input: &[u8], text: &str) {
    count_length(findings, input);
    if let Some(number) = after(text, "sheet refused ") {
        findings.count(LINES, 2);
        findings.count(REFUSALS, number);
    } else if let Some(nodes) = after(text, "sheet ") {
        findings.count(LINES, u64::from(text.contains("\nmay stop\n")));
        let codes = text.lines().filter(|line| line.starts_with("code "));
        let class = match (input[4], codes.count()) {
            (1, _) => 0,
            (_, 0) => 1,
            (_, 1..=11) => 2,
            _ => 3,
        };
        findings.count(CODES, class);
        let class = match nodes {
            0..=9 => 0,
            10..=31 => 1,
            _ => 2,
        };
        findings.count(NODES, class);
    }
}
