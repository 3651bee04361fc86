//! All verdicts at once: every test of small and large pairs into lists of every length, and
//! sheets that are refused.

use model::numbers::{FAILS, PASSES};
use model::planted::suites::{suite_with, SuiteFault};
use model::random::{deep_pair, pair, random_sheet, recoded, small_pair, Rng};
use model::sheet::{has_first_codes, Sheet};

use super::{bad_sheet, catch, codes_class, count_sheets, flag, names, shown_sheet, KEPT};
use crate::edge;
use crate::findings::Findings;
use crate::play::Part;

const CALL: &str = "judge_all, 0 judged or the refusal";
const MINE: &str = "judge_all, the refusals of the reference";
const THEIRS: &str = "judge_all, the refusals of the device";
const BOTH: &str = "judge_all, both sheets refused with different numbers";
const FAILED: &str = "judged, 0 no test fails, 1 some, 2 some and a later one passes";
const AGREE: &str = "judged pairs, 0 with the codes of version 1, 1 with others";
const CODES: &str =
    "judge_all refused 19, 0 the last code alone, 1 another alone, 2 another order, 3 otherwise";
const SHORT: &str = "judge_all refused 19, 0 with a list long enough, 1 shorter";
const ROOM: &str = "lists, 0 just long enough, 1 longer, 2 one place short, 3 shorter";

pub const PART: Part = Part {
    name: "suites",
    rounds: 3_500,
    findings,
    round,
    demands: |_| {},
};

fn findings() -> Findings {
    let groups = vec![
        (CALL, vec![0, 3, 5, 6, 7, 8, 10, 11, 18, 19]),
        (MINE, KEPT.to_vec()),
        (THEIRS, KEPT.to_vec()),
        (BOTH, vec![1]),
        (FAILED, vec![0, 1, 2]),
        (AGREE, vec![0, 1]),
        (CODES, (0..=3).collect()),
        (SHORT, vec![0, 1]),
        (ROOM, vec![0, 1, 2, 3]),
    ];
    Findings::new(groups, names(SuiteFault::ALL))
}

/// A small pair, a large one, and some that are refused.
fn round(rng: &mut Rng, round: u64, findings: &mut Findings) {
    let (reference, device) = small_pair(rng);
    judge(rng, findings, &reference, &device);
    let (reference, device) = match round % 4 {
        0 => deep_pair(rng),
        _ => pair(rng),
    };
    judge(rng, findings, &reference, &device);
    for _ in 0..3 {
        let (mut first, mut second) = (reference, device);
        match rng.below(6) {
            0 => first = bad_sheet(rng),
            1 => second = bad_sheet(rng),
            2 => (first, second) = (bad_sheet(rng), bad_sheet(rng)),
            3 => second = recoded(rng, &device),
            _ => second = random_sheet(rng),
        }
        judge(rng, findings, &first, &second);
        count_sheets(findings, [MINE, THEIRS, BOTH], &first, &second);
    }
}

/// A list for so many tests, and which kind of length it has.
fn list(rng: &mut Rng, tests: usize) -> (Vec<u8>, u64) {
    let (places, room) = match rng.below(6) {
        0 => (tests + rng.range(1, 40), 1),
        1 if tests > 0 => (tests - 1, 2),
        2 if tests > 1 => (rng.below(tests - 1), 3),
        _ => (tests, 0),
    };
    ((0..places).map(|_| rng.below(256) as u8).collect(), room)
}

/// One call, by the library, by the model, and by each fault that is not caught yet.
fn judge(rng: &mut Rng, findings: &mut Findings, reference: &Sheet, device: &Sheet) {
    let tests = usize::from(reference.n) * usize::from(device.n);
    let (lent, room) = list(rng, tests.min(1_024));
    let trace_only = rng.one_in(3);
    let traces = flag(rng, trace_only);
    let mut ours = lent.clone();
    let answer = edge::judge_all(reference, device, traces, &mut ours);
    let played = |fault| {
        let mut list = lent.clone();
        let answer = suite_with(fault, reference, device, trace_only, &mut list);
        (answer, list)
    };
    let (model, list) = played(SuiteFault::None);
    findings.compared((answer, &ours) == (model, &list), || {
        format!(
            "judge_all {traces} with {} places on {} against {}: model {model:?} {list:?}, library {answer:?} {ours:?}",
            lent.len(),
            shown_sheet(device),
            shown_sheet(reference)
        )
    });
    findings.count(CALL, u64::from(model.refusal));
    if model.refusal == 0 || model.refusal == 10 {
        findings.count(ROOM, room);
    }
    if model.refusal == 0 {
        findings.count(FAILED, failing(&list[..tests]));
        findings.count(AGREE, u64::from(!has_first_codes(reference)));
    }
    if model.refusal == 19 {
        findings.count(CODES, codes_class(reference, device));
        findings.count(SHORT, u64::from(lent.len() < tests));
    }
    catch(findings, SuiteFault::ALL, |fault| {
        let (other, list) = played(fault);
        (other, &list) != (answer, &ours)
    });
}

/// No test fails, some fail, or some fail and a later one passes.
fn failing(kinds: &[u8]) -> u64 {
    match kinds.iter().position(|&kind| kind == FAILS) {
        None => 0,
        Some(first) if kinds[first..].contains(&PASSES) => 2,
        Some(_) => 1,
    }
}
