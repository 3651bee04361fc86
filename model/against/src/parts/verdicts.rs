//! Verdicts: every test below p·q on small pairs, chosen tests on large ones, both kinds,
//! and sheets and test numbers that are refused.

use model::comparison::{compare, Outcome, MAX_WORDS};
use model::numbers::{judge_numbers, judged, FAILS, PASSES};
use model::planted::verdicts::{verdict_with, VerdictFault};
use model::random::{deep_pair, pair, random_sheet, recoded, small_pair, Rng};
use model::sheet::{has_first_codes, Sheet};
use model::tests::MAX_TEST;
use model::verdict::verdicts;

use super::{bad_sheet, catch, codes_class, count_sheets, flag, names, shown_sheet, KEPT};
use crate::edge;
use crate::findings::Findings;
use crate::play::Part;

const JUDGE: &str = "judge, 0 judged or the refusal";
const MINE: &str = "judge, the refusals of the reference";
const THEIRS: &str = "judge, the refusals of the device";
const BOTH: &str = "judge, both sheets refused with different numbers";
const VERDICT: &str = "judged, 11 passes, 12 fails, 13 and 14 the same of trace-only tests";
const NUMBER: &str =
    "judged tests 0 (0), 1 to 9 (1), 10 to 99 (2), 100 to 999 (3), 1000 and more (4)";
const AGREE: &str = "judged pairs, 0 with the codes of version 1, 1 with others";
const CODES: &str =
    "judge refused 19, 0 the last code alone, 1 another alone, 2 another order, 3 otherwise";
const HIGH: &str = "judge refused 19, 0 with k up to 1023, 1 above";
const SMALL: &str = "pairs whose tests below p q are all judged";
const LATER: &str = "pairs with a test that passes after one that fails";

pub const PART: Part = Part {
    name: "verdicts",
    rounds: 2_000,
    findings,
    round,
    demands: |_| {},
};

fn findings() -> Findings {
    let groups = vec![
        (JUDGE, vec![0, 3, 5, 6, 7, 8, 11, 14, 18, 19]),
        (MINE, KEPT.to_vec()),
        (THEIRS, KEPT.to_vec()),
        (BOTH, vec![1]),
        (VERDICT, vec![11, 12, 13, 14]),
        (NUMBER, vec![0, 1, 2, 3, 4]),
        (AGREE, vec![0, 1]),
        (CODES, (0..=3).collect()),
        (HIGH, vec![0, 1]),
        (SMALL, vec![1]),
        (LATER, vec![1]),
    ];
    Findings::new(groups, names(VerdictFault::ALL))
}

/// A small pair with every test, a large one with some, and some calls that are refused.
fn round(rng: &mut Rng, round: u64, findings: &mut Findings) {
    let trace_only = rng.one_in(3);
    let (reference, device) = small_pair(rng);
    let all = u16::from(reference.n) * u16::from(device.n);
    let numbers: Vec<u16> = (0..all).collect();
    findings.count(SMALL, 1);
    for kind in [false, true] {
        judge_all(rng, findings, (&reference, &device), &numbers, kind);
    }
    let (reference, device) = match round % 4 {
        0 | 1 => deep_pair(rng),
        _ => pair(rng),
    };
    let numbers = chosen(rng, &reference, &device, trace_only);
    judge_all(rng, findings, (&reference, &device), &numbers, trace_only);
    for _ in 0..5 {
        refused(rng, findings, &reference, &device);
    }
}

/// Tests around the distance of the nearest violation, the wrong bounds and the right one.
fn chosen(rng: &mut Rng, reference: &Sheet, device: &Sheet, trace_only: bool) -> Vec<u16> {
    let (p, q) = (u16::from(reference.n), u16::from(device.n));
    let mut numbers = vec![0, p * q - 1, p + q, p.max(q), rng.below(1_024) as u16];
    if rng.one_in(4) {
        numbers.push(MAX_TEST);
    }
    let outcome = compare(reference, device, trace_only, MAX_WORDS, 1_023);
    if let Ok(Outcome::Violates { d, .. }) = outcome {
        numbers.extend([d.saturating_sub(1), d, d + 1]);
    }
    numbers.retain(|&k| k <= MAX_TEST);
    numbers.sort_unstable();
    numbers.dedup();
    numbers
}

/// Some tests by the library, by the model in one sweep, and by each fault that is not
/// caught yet.
fn judge_all(
    rng: &mut Rng,
    findings: &mut Findings,
    (reference, device): (&Sheet, &Sheet),
    numbers: &[u16],
    trace_only: bool,
) {
    findings.count(AGREE, u64::from(!has_first_codes(reference)));
    let most = numbers.iter().max().map_or(0, |k| k + 1);
    let model = verdicts(reference, device, most, trace_only);
    let mut failed = false;
    let mut later = false;
    for &k in numbers {
        let model = judged(model.as_ref().map(|all| all[k as usize]).map_err(|&n| n));
        let traces = flag(rng, trace_only);
        let ours = edge::judge(reference, device, k, traces);
        findings.compared(ours == model, || {
            format!(
                "judge {k} {traces} on {} against {}: model {model:?}, library {ours:?}",
                shown_sheet(device),
                shown_sheet(reference)
            )
        });
        findings.count(JUDGE, u64::from(model.refusal));
        findings.count(VERDICT, u64::from(model.kind) + 2 * u64::from(trace_only));
        findings.count(NUMBER, digits(k));
        later |= failed && model.kind == PASSES;
        failed |= model.kind == FAILS;
        catch(findings, VerdictFault::ALL, |fault| {
            judged(verdict_with(fault, reference, device, k, trace_only)) != ours
        });
    }
    if later {
        findings.count(LATER, 1);
    }
}

/// One call that is refused, or not: sheets of any content, other events, other codes, a test too
/// high.
fn refused(rng: &mut Rng, findings: &mut Findings, reference: &Sheet, device: &Sheet) {
    let (mut first, mut second) = (*reference, *device);
    let mut k = rng.pick(&[0, 1, 2, MAX_TEST + 1, 65_535]);
    match rng.below(8) {
        0 => first = bad_sheet(rng),
        1 => second = bad_sheet(rng),
        2 => (first, second) = (bad_sheet(rng), bad_sheet(rng)),
        3 | 4 => second = random_sheet(rng),
        5 | 6 => second = recoded(rng, device),
        _ => k = rng.pick(&[MAX_TEST + 1, 2_000, 65_535]),
    }
    let trace_only = rng.one_in(2);
    let traces = flag(rng, trace_only);
    let ours = edge::judge(&first, &second, k, traces);
    let model = judge_numbers(&first, &second, k, traces);
    findings.compared(ours == model, || {
        format!(
            "judge {k} {traces} on {} against {}: model {model:?}, library {ours:?}",
            shown_sheet(&second),
            shown_sheet(&first)
        )
    });
    findings.count(JUDGE, u64::from(model.refusal));
    count_sheets(findings, [MINE, THEIRS, BOTH], &first, &second);
    if model.refusal == 19 {
        findings.count(CODES, codes_class(&first, &second));
        findings.count(HIGH, u64::from(k > MAX_TEST));
    }
    catch(findings, VerdictFault::ALL, |fault| {
        judged(verdict_with(fault, &first, &second, k, trace_only)) != ours
    });
}

fn digits(k: u16) -> u64 {
    match k {
        0 => 0,
        1..=9 => 1,
        10..=99 => 2,
        100..=999 => 3,
        _ => 4,
    }
}
