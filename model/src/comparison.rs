//! The comparison: common traces layer by layer, with the least trace to each pair.

use std::collections::{BTreeMap, BTreeSet};

use crate::probes::probes;
use crate::sheet::{after, Sheet, MAX_NODES};
use crate::verdict::admit_pair;

/// The words of the work list for each pair of nodes: the work list holds 2·p·q words, and
/// 12 applies below that.
pub const WORDS_A_PAIR: usize = 2;

/// The length of a work list that is long enough for any two sheets: 2,048 words.
pub const MAX_WORDS: usize = WORDS_A_PAIR * MAX_NODES * MAX_NODES;

/// What is named at the end of the trace.
#[derive(Clone, Copy, PartialEq, Eq, Debug)]
pub enum Named {
    Stray(u8),
    Refused { probe: u16, acceptance: u16 },
}

/// The answer of a comparison.
#[derive(Clone, PartialEq, Eq, Debug)]
pub enum Outcome {
    Refines {
        cleared: u16,
    },
    Violates {
        d: u16,
        cleared: u16,
        trace: Vec<u8>,
        named: Named,
    },
}

/// The comparison given the lengths of the two lent lists, or the refusal: the
/// reference's, the device's, 11, 19, 12, 13.
pub fn compare(
    reference: &Sheet,
    device: &Sheet,
    trace_only: bool,
    work_length: usize,
    trace_length: usize,
) -> Result<Outcome, u8> {
    admit_pair(reference, device)?;
    let pairs = reference.n as usize * device.n as usize;
    if work_length < WORDS_A_PAIR * pairs {
        return Err(12);
    }
    if trace_length < pairs - 1 {
        return Err(13);
    }
    Ok(search(reference, device, trace_only))
}

/// The comparison on two lent lists. All 2·p·q words of the work list are 0 at the end,
/// later ones being left; the trace is at the front of its list, and the rest is left too.
pub fn compare_into(
    reference: &Sheet,
    device: &Sheet,
    trace_only: bool,
    work: &mut [u16],
    list: &mut [u8],
) -> Result<Outcome, u8> {
    let outcome = compare(reference, device, trace_only, work.len(), list.len())?;
    let pairs = reference.n as usize * device.n as usize;
    work[..WORDS_A_PAIR * pairs].fill(0);
    if let Outcome::Violates { trace, .. } = &outcome {
        list[..trace.len()].copy_from_slice(trace);
    }
    Ok(outcome)
}

/// A device initial outside the reference's.
pub fn strays(reference: &Sheet, device: &Sheet, (a, b): (u8, u8)) -> bool {
    device.initials(b) & !reference.initials(a) != 0
}

/// A device acceptance that includes no reference acceptance.
pub fn refuses(reference: &Sheet, device: &Sheet, (a, b): (u8, u8)) -> bool {
    let (reference_row, device_row) = (reference.row(a), device.row(b));
    let includes_one = |&set: &u16| {
        let mut inside = reference_row.acceptances().iter();
        inside.any(|&small| small & !set == 0)
    };
    !device_row.acceptances().iter().all(includes_one)
}

/// A violating pair; of the trace-only comparison only by a stray.
pub fn violating(reference: &Sheet, device: &Sheet, pair: (u8, u8), trace_only: bool) -> bool {
    strays(reference, device, pair) || !trace_only && refuses(reference, device, pair)
}

/// Layer number i has each pair whose shortest common trace has i events, with the
/// least of these. The prefixes of a shortest trace to a pair are shortest to theirs,
/// and the least trace has least prefixes, so nothing is lost by keeping only these.
fn search(reference: &Sheet, device: &Sheet, trace_only: bool) -> Outcome {
    let mut nearer: BTreeSet<(u8, u8)> = BTreeSet::new();
    let mut layer = BTreeMap::from([((0, 0), Vec::new())]);
    while !layer.is_empty() {
        let bad = |pair: (u8, u8)| violating(reference, device, pair, trace_only);
        let least = layer
            .iter()
            .filter(|(&pair, _)| bad(pair))
            .min_by_key(|(_, trace)| *trace);
        if let Some((&pair, trace)) = least {
            return Outcome::Violates {
                d: trace.len() as u16,
                cleared: nearer.len() as u16,
                trace: trace.clone(),
                named: name(reference, device, pair),
            };
        }
        nearer.extend(layer.keys());
        layer = next_layer(reference, device, &layer, &nearer);
    }
    Outcome::Refines {
        cleared: nearer.len() as u16,
    }
}

/// The pairs one event further that were not reached before, each with its least trace.
fn next_layer(
    reference: &Sheet,
    device: &Sheet,
    layer: &BTreeMap<(u8, u8), Vec<u8>>,
    nearer: &BTreeSet<(u8, u8)>,
) -> BTreeMap<(u8, u8), Vec<u8>> {
    let mut next: BTreeMap<(u8, u8), Vec<u8>> = BTreeMap::new();
    for (&(a, b), trace) in layer {
        for event in 0..reference.e {
            let steps = (after(reference, a, event), after(device, b, event));
            let (Some(a_next), Some(b_next)) = steps else {
                continue;
            };
            if nearer.contains(&(a_next, b_next)) {
                continue;
            }
            let longer = [&trace[..], &[event]].concat();
            let kept = next
                .entry((a_next, b_next))
                .or_insert_with(|| longer.clone());
            if longer < *kept {
                *kept = longer;
            }
        }
    }
    next
}

/// What is named at a violating pair: the smallest stray; without one the first probe
/// of the list that a device acceptance misses, with the lowest such acceptance.
fn name(reference: &Sheet, device: &Sheet, (a, b): (u8, u8)) -> Named {
    let outside = device.initials(b) & !reference.initials(a);
    if outside != 0 {
        return Named::Stray(outside.trailing_zeros() as u8);
    }
    let row = device.row(b);
    for probe in probes(reference, a) {
        if let Some(&acceptance) = row
            .acceptances()
            .iter()
            .filter(|&set| set & probe == 0)
            .min()
        {
            return Named::Refused { probe, acceptance };
        }
    }
    unreachable!("a refusal always shows at some probe");
}
