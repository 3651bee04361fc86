//! Definitions written out literally, to hold the model against.
#![allow(dead_code)]

use model::comparison::{compare, Outcome, MAX_WORDS};
use model::sheet::{after, walk, Sheet};
use model::tests::{open, step, verdict, Answer, Run, Verdict};
use model::verdict::device_reports;

/// The comparison with lists that are always long enough.
pub fn compared(reference: &Sheet, device: &Sheet, trace_only: bool) -> Outcome {
    compare(reference, device, trace_only, MAX_WORDS, 1_023).expect("accepted")
}

/// Whether the device fails test k.
pub fn fails(reference: &Sheet, device: &Sheet, k: u16, trace_only: bool) -> bool {
    verdict(reference, device, k, trace_only).expect("accepted") == Verdict::Fails
}

/// How many events a set has, counted one by one.
pub fn events_in(set: u16) -> usize {
    (0..16).filter(|event| set >> event & 1 == 1).count()
}

/// Whether a probe stands before another in a list: it has fewer events, or as many and the lower
/// number.
pub fn before(one: u16, other: u16) -> bool {
    let (few, many) = (events_in(one), events_in(other));
    few < many || few == many && one < other
}

/// After these nodes the device does or refuses what the reference does not. Every
/// event and every set of events is tried.
pub fn violation_at(reference: &Sheet, device: &Sheet, pair: (u8, u8), trace_only: bool) -> bool {
    let (a, b) = pair;
    let does =
        |event: u8| after(device, b, event).is_some() && after(reference, a, event).is_none();
    let refuses = |set: u16| device.row(b).may_refuse(set) && !reference.row(a).may_refuse(set);
    (0..device.e).any(does) || !trace_only && (0..=device.alphabet()).any(refuses)
}

/// Every list of exactly `length` events below `e`, in dictionary order.
pub fn lists(e: u8, length: usize) -> Vec<Vec<u8>> {
    let mut found = vec![Vec::new()];
    for _ in 0..length {
        let longer = |list: &Vec<u8>| (0..e).map(|event| [&list[..], &[event]].concat()).collect();
        found = found.iter().flat_map::<Vec<Vec<u8>>, _>(longer).collect();
    }
    found
}

/// The shortest and then least list that is a violation, among all given ones, which
/// are sorted so; with the number of different pairs reached by shorter common traces.
pub fn nearest(
    reference: &Sheet,
    device: &Sheet,
    all: &[Vec<u8>],
    trace_only: bool,
) -> (Option<Vec<u8>>, usize) {
    let both = |list: &[u8]| Some((walk(reference, list)?, walk(device, list)?));
    let violation = |list: &&Vec<u8>| {
        both(list).is_some_and(|pair| violation_at(reference, device, pair, trace_only))
    };
    let first = all.iter().find(violation).cloned();
    let limit = first.as_ref().map_or(usize::MAX, |list| list.len());
    let shorter = all.iter().filter(|list| list.len() < limit);
    let mut pairs: Vec<(u8, u8)> = shorter.filter_map(|list| both(list)).collect();
    pairs.sort_unstable();
    pairs.dedup();
    (first, pairs.len())
}

/// Every given list that is a trace of the device is one of the reference, and every
/// refusal after it is the reference's.
pub fn refines(reference: &Sheet, device: &Sheet, all: &[Vec<u8>], trace_only: bool) -> bool {
    all.iter().all(|list| {
        let Some(b) = walk(device, list) else {
            return true;
        };
        let Some(a) = walk(reference, list) else {
            return false;
        };
        let (here, there) = (reference.row(a), device.row(b));
        let kept = |set: u16| here.may_refuse(set) || !there.may_refuse(set);
        trace_only || (0..=device.alphabet()).all(kept)
    })
}

/// Whether some run from this record can end failed, by the public calls alone.
pub fn run_can_fail(
    reference: &Sheet,
    device: &Sheet,
    run: &Run,
    offer: u16,
    device_node: u8,
) -> bool {
    let row = device.row(device_node);
    device_reports(&row, device.e, offer)
        .into_iter()
        .any(|report| {
            let (answer, moved) = step(reference, run, report);
            match (answer, report) {
                (Answer::Going(next), model::tests::Report::Event(event)) => {
                    let device_next = after(device, device_node, event).expect("an initial");
                    run_can_fail(reference, device, &moved, next, device_next)
                }
                (Answer::Denied(number), _) => panic!("denied {number}"),
                (answer, _) => answer.failed(),
            }
        })
}

/// Whether the device fails test k with choice number h, by the public calls alone.
pub fn fails_with(reference: &Sheet, device: &Sheet, k: u16, h: u16, trace_only: bool) -> bool {
    match open(reference, k, h, trace_only) {
        (Answer::Going(offer), run) => run_can_fail(reference, device, &run, offer, 0),
        (answer, _) => panic!("opening answered {answer:?}"),
    }
}

/// The least common trace of exactly `left` further events to a violating pair, found
/// from the front by trying the events in order; `dead` keeps what was tried in vain.
pub fn least_trace(
    sheets: (&Sheet, &Sheet),
    pair: (u8, u8),
    left: usize,
    trace_only: bool,
    dead: &mut std::collections::HashSet<((u8, u8), usize)>,
) -> Option<Vec<u8>> {
    if left == 0 {
        return violation_at(sheets.0, sheets.1, pair, trace_only).then(Vec::new);
    }
    if dead.contains(&(pair, left)) {
        return None;
    }
    for event in 0..sheets.0.e {
        let steps = (
            after(sheets.0, pair.0, event),
            after(sheets.1, pair.1, event),
        );
        let (Some(a), Some(b)) = steps else { continue };
        if let Some(rest) = least_trace(sheets, (a, b), left - 1, trace_only, dead) {
            return Some([&[event], &rest[..]].concat());
        }
    }
    dead.insert((pair, left));
    None
}
