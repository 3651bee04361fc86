//! Reading and checking: valid sheets of every size and both versions, damaged bytes, kept sheets
//! with any content.

use model::faults::{check_with, read_with, Fault, ReadAnswer};
use model::random::{
    damaged, damaged_twice, full_sheet, kept, kept_noise, kept_twice, long_bytes, noise_bytes,
    sheet_of_size, spelled, Rng, AIMS_KEPT, AIMS_READ,
};
use model::sheet::{
    check, encode, first_codes, has_first_codes, Sheet, MAX_BYTES, MAX_EVENTS, MAX_NODES, MAX_SETS,
};

use super::shown_sheet;
use crate::edge;
use crate::findings::Findings;
use crate::play::Part;

const READ: &str = "read, 0 accepted or the refusal";
const CHECK: &str = "check, 0 accepted or the refusal";
const NODES: &str = "valid sheets by nodes";
const EVENTS: &str = "valid sheets by events";
const SETS: &str = "valid sheets with a node of so many sets";
const LARGE: &str = "valid sheets with 16 nodes or more (1) or fewer (0)";
const LARGEST: &str = "valid sheets of the most bytes";
const LONG: &str = "read, by the bytes that a right length field needs";
const VERSION: &str =
    "accepted, version 1 (1), version 2 with the codes of version 1 (2), a code 0 (3), others (4)";
const NEITHER: &str = "refused 2, by the version";
const CUT: &str =
    "refused 4 in version 2, 0 codes cut off, 1 with one twice before the cut, 2 no byte after them, 3 later";
const TWICE: &str = "read refused 18, by what other codes get";
const KEPT_TWICE: &str = "check refused 18, by what other codes get";
const RANGE: &str = "refused 3 with a code given twice, 0 read, 1 check";
const UNUSED: &str = "refused 7 for an unused code alone";

pub const PART: Part = Part {
    name: "sheets",
    rounds: 20_000,
    findings,
    round,
    demands,
};

fn findings() -> Findings {
    let groups = vec![
        (READ, (0..=8).chain([18]).collect()),
        (CHECK, vec![0, 3, 5, 6, 7, 8, 18]),
        (NODES, (1..=MAX_NODES as u64).collect()),
        (EVENTS, (1..=MAX_EVENTS as u64).collect()),
        (SETS, (1..=MAX_SETS as u64).collect()),
        (LARGE, vec![0, 1]),
        (LARGEST, vec![MAX_BYTES as u64]),
        (LONG, (0..=4).collect()),
        (VERSION, (1..=4).collect()),
        (NEITHER, vec![0, 3, 255]),
        (CUT, (0..=3).collect()),
        (TWICE, vec![0, 4, 5, 6, 7, 8]),
        (KEPT_TWICE, vec![0, 5, 6, 7, 8]),
        (RANGE, vec![0, 1]),
        (UNUSED, vec![7]),
    ];
    let plants = plants().into_iter();
    let name = |(call, fault): (Call, Fault)| format!("{fault:?} in {call:?}");
    Findings::new(groups, plants.map(name).collect())
}

/// The two calls of this part.
#[derive(Clone, Copy, PartialEq, Eq, Debug)]
enum Call {
    Read,
    Check,
}

/// Each call with each fault that can be planted in it.
fn plants() -> Vec<(Call, Fault)> {
    let read = Fault::ALL.into_iter().filter(|fault| fault.in_read());
    let check = Fault::ALL.into_iter().filter(|fault| fault.in_check());
    let read = read.map(|fault| (Call::Read, fault));
    read.chain(check.map(|fault| (Call::Check, fault)))
        .collect()
}

/// One valid sheet as bytes and as kept; bytes damaged once and twice, and noise; kept
/// sheets with one place changed, with more changed, and noise. Now and then bytes longer
/// than any sheet, or a sheet without unused places.
fn round(rng: &mut Rng, round: u64, findings: &mut Findings) {
    let sheet = valid(rng, round, findings);
    try_read(findings, &spelled(rng, &sheet));
    try_check(findings, &sheet);
    let turn = round as usize;
    try_read(findings, &damaged(rng, AIMS_READ[turn % AIMS_READ.len()]));
    try_read(findings, &damaged_twice(rng));
    try_read(findings, &noise_bytes(rng));
    match turn % 16 {
        0 => try_read(findings, &long_bytes(rng)),
        1 | 9 => full(rng, findings),
        _ => {}
    }
    try_check(findings, &kept(rng, AIMS_KEPT[turn % AIMS_KEPT.len()]));
    try_check(findings, &kept_twice(rng));
    try_check(findings, &kept_noise(rng));
}

/// A sheet with few unused places or none, as it is, with one byte changed, and with one
/// kept place changed.
fn full(rng: &mut Rng, findings: &mut Findings) {
    let mut sheet = full_sheet(rng);
    let mut bytes = encode(2, &sheet);
    if bytes.len() == MAX_BYTES {
        findings.count(LARGEST, MAX_BYTES as u64);
    }
    try_read(findings, &bytes);
    try_check(findings, &sheet);
    let place = rng.below(bytes.len());
    bytes[place] = rng.byte();
    try_read(findings, &bytes);
    let row = &mut sheet.rows[rng.below(MAX_NODES)];
    match rng.below(4) {
        0 => row.succ[rng.below(MAX_EVENTS)] = rng.byte(),
        1 => sheet.codes[rng.below(MAX_EVENTS)] = sheet.codes[0] ^ u16::from(rng.one_in(2)),
        2 => row.sets[rng.below(MAX_SETS)] ^= 1 << rng.below(16),
        _ => row.c = rng.byte(),
    }
    try_check(findings, &sheet);
}

/// A valid sheet: each number of events in turn, and in one of three rounds 16 nodes or
/// more.
fn valid(rng: &mut Rng, round: u64, findings: &mut Findings) -> Sheet {
    let e = 1 + (round / 3) as usize % MAX_EVENTS;
    let n = match round % 3 {
        0 => rng.range(16, MAX_NODES),
        1 => rng.range(4, 15),
        _ => rng.range(1, 6),
    };
    let sheet = sheet_of_size(rng, e, n);
    findings.count(NODES, n as u64);
    findings.count(EVENTS, e as u64);
    findings.count(LARGE, u64::from(n >= 16));
    for c in 1..=MAX_SETS as u8 {
        if sheet.rows[..n].iter().any(|row| row.c == c) {
            findings.count(SETS, u64::from(c));
        }
    }
    sheet
}

fn demands(findings: &mut Findings) {
    let large = findings.counted(LARGE, 1);
    let small = findings.counted(LARGE, 0);
    findings.demand(large + small >= 20_000, "20,000 valid sheets");
    findings.demand(
        2 * large >= small,
        "a third of the valid sheets has 16 nodes or more",
    );
}

/// One reading by the library, by the model, and by each fault planted in it that is not caught yet.
fn try_read(findings: &mut Findings, bytes: &[u8]) {
    let ours = edge::read(bytes);
    let model = read_with(Fault::None, bytes);
    findings.compared(ours == model, || {
        format!(
            "read of {}: {}",
            shown_bytes(bytes),
            read_difference(&model, &ours)
        )
    });
    findings.count(READ, u64::from(model.number));
    let follow = bytes.len().saturating_sub(4) as u32;
    findings.count(LONG, u64::from((39 - follow.leading_zeros()) / 8));
    count_read(findings, bytes, &model);
    catch(findings, Call::Read, |fault| {
        read_with(fault, bytes) != ours
    });
}

/// One check by the library, by the model, and by each fault planted in it that is not caught yet.
fn try_check(findings: &mut Findings, sheet: &Sheet) {
    let ours = edge::check(sheet);
    let model = check_with(Fault::None, sheet);
    findings.compared(ours == model, || {
        format!(
            "check of {}: model {model}, library {ours}",
            shown_sheet(sheet)
        )
    });
    findings.count(CHECK, u64::from(model));
    count_check(findings, sheet, model);
    catch(findings, Call::Check, |fault| {
        check_with(fault, sheet) != ours
    });
}

/// Counts what a reading has to do with versions and codes.
fn count_read(findings: &mut Findings, bytes: &[u8], answer: &ReadAnswer) {
    let Some(&[.., version, e, _]) = bytes.first_chunk::<7>() else {
        return;
    };
    let end = 7 + 2 * usize::from(e);
    let words = bytes[7..end.min(bytes.len())].chunks_exact(2);
    let codes: Vec<u16> = words.map(|b| u16::from_be_bytes([b[0], b[1]])).collect();
    match (answer.number, version) {
        (0, 1) => findings.count(VERSION, 1),
        (0, _) if has_first_codes(&answer.sheet) => findings.count(VERSION, 2),
        (0, _) => findings.count(VERSION, 4 - u64::from(codes.contains(&0))),
        (2, 0 | 3 | 255) => findings.count(NEITHER, version.into()),
        (3, 2) if bytes.len() >= end && twice(&codes) => findings.count(RANGE, 0),
        (4, 2) if bytes.len() < end => findings.count(CUT, twice(&codes).into()),
        (4, 2) => findings.count(CUT, if bytes.len() == end { 2 } else { 3 }),
        (18, _) => {
            let mut other = bytes.to_vec();
            for (place, code) in other[7..end].chunks_exact_mut(2).zip(first_codes(e)) {
                place.copy_from_slice(&code.to_be_bytes());
            }
            findings.count(TWICE, read_with(Fault::None, &other).number.into());
        }
        _ => {}
    }
}

/// Counts what a check has to do with codes.
fn count_check(findings: &mut Findings, sheet: &Sheet, answer: u8) {
    match answer {
        3 if twice(sheet.used_codes()) => findings.count(RANGE, 1),
        7 if check(&sheet.with_codes(sheet.used_codes())) == 0 => findings.count(UNUSED, 7),
        18 => {
            let mut other = *sheet;
            let places = other.codes.iter_mut().zip(first_codes(sheet.e));
            places.for_each(|(place, code)| *place = code);
            findings.count(KEPT_TWICE, check(&other).into());
        }
        _ => {}
    }
}

/// Whether a code is given twice.
fn twice(codes: &[u16]) -> bool {
    (1..codes.len()).any(|place| codes[..place].contains(&codes[place]))
}

/// Marks the faults in a call that differ from the library on this input.
fn catch(findings: &mut Findings, call: Call, differs: impl Fn(Fault) -> bool) {
    let open = findings.uncaught();
    if open.is_empty() {
        return;
    }
    let plants = plants();
    for plant in open {
        let (planted, fault) = plants[plant];
        if planted == call && differs(fault) {
            findings.caught(plant);
        }
    }
}

/// The number, or the first place of the sheet, in which two answers differ.
fn read_difference(model: &ReadAnswer, ours: &ReadAnswer) -> String {
    let told = |place: String, model: u16, ours: u16| {
        (model != ours).then(|| format!("{place}: model {model}, library {ours}"))
    };
    let heads = [
        ("refusal", model.number, ours.number),
        ("e", model.sheet.e, ours.sheet.e),
        ("n", model.sheet.n, ours.sheet.n),
    ];
    let mut places = heads
        .map(|(place, a, b)| told(place.into(), a.into(), b.into()))
        .to_vec();
    for (i, (a, b)) in model.sheet.codes.iter().zip(&ours.sheet.codes).enumerate() {
        places.push(told(format!("codes[{i}]"), *a, *b));
    }
    for (v, (a, b)) in model.sheet.rows.iter().zip(&ours.sheet.rows).enumerate() {
        places.push(told(format!("rows[{v}].c"), a.c.into(), b.c.into()));
        for (i, (a, b)) in a.succ.iter().zip(&b.succ).enumerate() {
            places.push(told(
                format!("rows[{v}].succ[{i}]"),
                (*a).into(),
                (*b).into(),
            ));
        }
        for (j, (a, b)) in a.sets.iter().zip(&b.sets).enumerate() {
            places.push(told(format!("rows[{v}].sets[{j}]"), *a, *b));
        }
    }
    places.into_iter().flatten().next().unwrap_or_default()
}

fn shown_bytes(bytes: &[u8]) -> String {
    let most = bytes.len().min(1_500);
    let all: String = bytes[..most]
        .iter()
        .map(|byte| format!("{byte:02x}"))
        .collect();
    format!("{} bytes {all}", bytes.len())
}
