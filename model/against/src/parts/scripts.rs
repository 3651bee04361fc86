//! Counts of scripts: every length on small pairs, on pairs whose scripts go far and on others, and
//! sheets and lengths that are refused.

use model::numbers::{count_numbers, Scripts};
use model::planted::scripts::{count_with, ScriptFault};
use model::random::{
    deep_pair, full_pair, pair, random_sheet, recoded, script_length, small_pair, Rng,
};
use model::scripts::{are_few, MAX_SCRIPT};
use model::sheet::{has_first_codes, Sheet};

use super::{bad_sheet, catch, codes_class, count_sheets, names, shown_sheet, KEPT};
use crate::edge;
use crate::findings::Findings;
use crate::play::Part;

const CALL: &str = "count, 0 counted or the refusal";
const MINE: &str = "count, the refusals of the reference";
const THEIRS: &str = "count, the refusals of the device";
const BOTH: &str = "count, both sheets refused with different numbers";
const LENGTH: &str = "counted scripts, by their length";
const LONG: &str = "count refused 20, 0 at 17, 1 at a low byte up to 16, 2 otherwise";
const WAY: &str = "counted scripts, 0 walked one by one, 1 by pairs";
const WALKED: &str =
    "walked, 0 none (0), up to 65535 (1), below 2 to the 32 (2), more (3), all (4)";
const DEVICE: &str =
    "device stops, 0 none (0), up to 65535 (1), below 2 to the 32 (2), more (3), all (4)";
const REFERENCE: &str =
    "reference stops, 0 none (0), up to 65535 (1), below 2 to the 32 (2), more (3), all (4)";
const AGREE: &str = "counted pairs, 0 with the codes of version 1, 1 with others";
const CODES: &str =
    "count refused 19, 0 the last code alone, 1 another alone, 2 another order, 3 otherwise";
const HIGH: &str = "count refused, 0 with 11 and L up to 16, 1 with 11 above, 2 and 3 so with 19";

pub const PART: Part = Part {
    name: "scripts",
    rounds: 2_000,
    findings,
    round,
    demands: |_| {},
};

fn findings() -> Findings {
    let groups = vec![
        (CALL, vec![0, 3, 5, 6, 7, 8, 11, 18, 19, 20]),
        (MINE, KEPT.to_vec()),
        (THEIRS, KEPT.to_vec()),
        (BOTH, vec![1]),
        (LENGTH, (0..=u64::from(MAX_SCRIPT)).collect()),
        (LONG, vec![0, 1, 2]),
        (WAY, vec![0, 1]),
        (WALKED, (0..=4).collect()),
        (DEVICE, (0..=4).collect()),
        (REFERENCE, (0..=4).collect()),
        (AGREE, vec![0, 1]),
        (CODES, (0..=3).collect()),
        (HIGH, (0..=3).collect()),
    ];
    Findings::new(groups, names(ScriptFault::ALL))
}

/// A small pair, one whose scripts go far, another one, and some that are refused.
fn round(rng: &mut Rng, round: u64, findings: &mut Findings) {
    let (reference, device) = small_pair(rng);
    count(rng, findings, &reference, &device);
    let (reference, device) = full_pair(rng);
    count(rng, findings, &reference, &device);
    let (reference, device) = match round % 4 {
        0 => deep_pair(rng),
        _ => pair(rng),
    };
    count(rng, findings, &reference, &device);
    for _ in 0..3 {
        let (mut first, mut second) = (reference, device);
        match rng.below(6) {
            0 => first = bad_sheet(rng),
            1 => second = bad_sheet(rng),
            2 => (first, second) = (bad_sheet(rng), bad_sheet(rng)),
            3 => second = random_sheet(rng),
            _ => second = recoded(rng, &device),
        }
        count(rng, findings, &first, &second);
        count_sheets(findings, [MINE, THEIRS, BOTH], &first, &second);
    }
}

/// One call, by the library, by the model, and by each fault that is not caught yet.
fn count(rng: &mut Rng, findings: &mut Findings, reference: &Sheet, device: &Sheet) {
    let length = script_length(rng);
    let ours = edge::count(reference, device, length);
    let model = count_numbers(reference, device, length);
    findings.compared(ours == model, || {
        format!(
            "count {length} on {} against {}: model {model:?}, library {ours:?}",
            shown_sheet(device),
            shown_sheet(reference)
        )
    });
    findings.count(CALL, u64::from(model.refusal));
    match model.refusal {
        0 => count_answer(findings, reference, length, &model),
        11 => findings.count(HIGH, u64::from(length > MAX_SCRIPT)),
        19 => {
            findings.count(CODES, codes_class(reference, device));
            findings.count(HIGH, 2 + u64::from(length > MAX_SCRIPT));
        }
        20 => findings.count(LONG, long_class(length)),
        _ => {}
    }
    catch(findings, ScriptFault::ALL, |fault| {
        count_with(fault, reference, device, length) != ours
    });
}

/// The classes of an answer that counts.
fn count_answer(findings: &mut Findings, reference: &Sheet, length: u16, answer: &Scripts) {
    findings.count(LENGTH, u64::from(length));
    findings.count(WAY, u64::from(!are_few(reference.e, length)));
    findings.count(AGREE, u64::from(!has_first_codes(reference)));
    let all = answer.walked + answer.device + answer.reference;
    for (group, count) in [
        (WALKED, answer.walked),
        (DEVICE, answer.device),
        (REFERENCE, answer.reference),
    ] {
        findings.count(group, size_class(count, all));
    }
}

/// The class of a count among all scripts.
fn size_class(count: u64, all: u64) -> u64 {
    match count {
        0 => 0,
        _ if count == all => 4,
        1..=0xFFFF => 1,
        0x1_0000..=0xFFFF_FFFF => 2,
        _ => 3,
    }
}

/// The class of a length above 16.
fn long_class(length: u16) -> u64 {
    match length {
        17 => 0,
        _ if length % 256 <= MAX_SCRIPT => 1,
        _ => 2,
    }
}
