//! The parts of the comparison, each with its inputs, its classes and its faults.

mod bounds;
mod comparisons;
mod keypads;
mod probes;
mod runs;
mod scripts;
mod sheets;
mod suites;
mod texts;
mod verdicts;
mod walks;

use std::collections::BTreeSet;

use model::random::{kept, kept_noise, kept_twice, Rng, AIMS_KEPT};
use model::sheet::{check, Row, Sheet};

use crate::findings::Findings;
use crate::play::Part;

/// Every part, in the order in which they are played.
pub static ALL: [Part; 19] = [
    sheets::PART,
    probes::PART,
    runs::PART,
    verdicts::PART,
    suites::PART,
    comparisons::PART,
    scripts::PART,
    keypads::PART,
    walks::PART,
    bounds::PART,
    texts::compare::PART,
    texts::suite::PART,
    texts::show::PART,
    texts::probe_list::PART,
    texts::live::PART,
    texts::script_counts::PART,
    texts::keypad_check::PART,
    texts::walk::PART,
    texts::bound_pair::PART,
];

/// 01's mistakes that a good bench hand makes: the name under which each is planted, in every
/// part in which it can show, and the mistake in words.
pub const MISTAKES: [(&str, &str); 6] = [
    ("DepthSum", "stopping at depth p + q"),
    ("DepthLarger", "stopping at the larger of the two"),
    ("AcceptancesEqual", "comparing acceptances for equality"),
    ("InitialsBelow", "offering only the initials below depth k"),
    ("EveryHittingSet", "listing every hitting set"),
    (
        "EmptyIsNoRule",
        "taking the empty acceptance as no rule here",
    ),
];

/// The refusals of a kept sheet.
const KEPT: [u64; 6] = [3, 5, 6, 7, 8, 18];

/// How the codes of two accepted sheets of equal E differ: 0 in the last event's alone, 1 in
/// another event's alone, 2 they are the same in another order, 3 otherwise.
fn codes_class(reference: &Sheet, device: &Sheet) -> u64 {
    let last = usize::from(reference.e) - 1;
    match lone_place(reference, device) {
        Some(place) if place == last => 0,
        Some(_) => 1,
        None => {
            let codes = |sheet: &Sheet| sheet.used_codes().iter().copied().collect::<BTreeSet<_>>();
            3 - u64::from(codes(reference) == codes(device))
        }
    }
}

/// The event whose code is the only one in which two accepted sheets of equal E differ.
fn lone_place(reference: &Sheet, device: &Sheet) -> Option<usize> {
    let both = reference.codes.iter().zip(&device.codes).enumerate();
    let places: Vec<usize> = both.filter(|(_, (a, b))| a != b).map(|(i, _)| i).collect();
    match places[..] {
        [place] => Some(place),
        _ => None,
    }
}

/// Counts whose sheet a call on two sheets refuses: the number in the group of the reference or
/// of the device, and 1 in the third group if both are refused, with different numbers.
fn count_sheets(findings: &mut Findings, groups: [&str; 3], reference: &Sheet, device: &Sheet) {
    match (check(reference), check(device)) {
        (0, 0) => {}
        (0, number) => findings.count(groups[1], u64::from(number)),
        (number, other) => {
            findings.count(groups[0], u64::from(number));
            if other != 0 && other != number {
                findings.count(groups[2], 1);
            }
        }
    }
}

/// Marks the faults, planted in the order of `faults`, that differ from the library on
/// this input.
fn catch<F: Copy>(findings: &mut Findings, faults: &[F], differs: impl Fn(F) -> bool) {
    for plant in findings.uncaught() {
        if faults.get(plant).is_some_and(|&fault| differs(fault)) {
            findings.caught(plant);
        }
    }
}

/// The names of planted faults.
fn names<F: std::fmt::Debug>(faults: &[F]) -> Vec<String> {
    faults.iter().map(|fault| format!("{fault:?}")).collect()
}

/// A kept sheet that a call refuses, or one of any content.
fn bad_sheet(rng: &mut Rng) -> Sheet {
    match rng.below(4) {
        0 => kept_twice(rng),
        1 => kept_noise(rng),
        _ => {
            let aim = rng.pick(&AIMS_KEPT);
            kept(rng, aim)
        }
    }
}

/// A flag's number: 0 for false, mostly 1 for true.
fn flag(rng: &mut Rng, set: bool) -> u8 {
    match set {
        false => 0,
        true if rng.one_in(4) => rng.range(2, 255) as u8,
        true => 1,
    }
}

fn shown_sheet(sheet: &Sheet) -> String {
    let rows = sheet.rows.iter().enumerate();
    let used = rows.filter(|(_, row)| **row != Row::UNUSED);
    let row = |(v, row): (usize, &Row)| format!("{v} {:?} {:?} {}", row.succ, row.sets, row.c);
    let rows: Vec<String> = used.map(row).collect();
    let (e, n, codes) = (sheet.e, sheet.n, sheet.codes);
    format!("e {e} n {n} codes {codes:?} rows {}", rows.join("; "))
}
