//! The claim on tests and comparisons together, on all tiny pairs and many random ones.

mod common;

use std::collections::HashSet;

use common::{
    before, compared, fails, fails_with, least_trace, lists, nearest, refines, violation_at,
};
use model::comparison::{refuses, strays, Named, Outcome};
use model::probes::probes;
use model::random::{device_of, pair, random_raw, Rng};
use model::sheet::{check, walk, Sheet};
use model::small::{all_nodes, all_sheets};
use model::tests::{verdicts, Verdict};

/// The distance, count and trace of an answer, in the form of `nearest`.
fn parts(outcome: &Outcome) -> (Option<Vec<u8>>, usize) {
    match outcome {
        Outcome::Refines { cleared } => (None, *cleared as usize),
        Outcome::Violates { cleared, trace, .. } => (Some(trace.clone()), *cleared as usize),
    }
}

/// What is named at the end of the trace is what the paper says.
fn check_named(reference: &Sheet, device: &Sheet, outcome: &Outcome) {
    let Outcome::Violates {
        d, trace, named, ..
    } = outcome
    else {
        return;
    };
    assert_eq!(*d as usize, trace.len());
    let a = walk(reference, trace).expect("a trace of the reference");
    let b = walk(device, trace).expect("a trace of the device");
    let outside = device.initials(b) & !reference.initials(a);
    match *named {
        Named::Stray(event) => {
            assert!(outside >> event & 1 == 1 && outside & ((1 << event) - 1) == 0);
        }
        Named::Refused { probe, acceptance } => {
            assert_eq!(outside, 0);
            let row = device.row(b);
            let misses = |probe: u16| {
                row.acceptances()
                    .iter()
                    .copied()
                    .filter(move |a| a & probe == 0)
            };
            let list = probes(reference, a);
            assert!(list.contains(&probe));
            assert!(list
                .iter()
                .all(|&other| !before(other, probe) || misses(other).count() == 0));
            assert_eq!(misses(probe).min(), Some(acceptance));
        }
    }
}

/// The demand on one pair, given the verdicts on tests 0 to p·q - 1 as "fails".
fn check_demand(reference: &Sheet, device: &Sheet, trace_only: bool, failed: &[bool]) -> Outcome {
    let outcome = compared(reference, device, trace_only);
    let (trace, _) = parts(&outcome);
    let first = failed.iter().position(|&fails| fails);
    assert_eq!(trace.as_ref().map(|list| list.len()), first);
    if trace_only {
        assert_eq!(failed.last(), Some(&first.is_some()));
        assert!(failed.windows(2).all(|two| two[1] || !two[0]));
    }
    check_named(reference, device, &outcome);
    outcome
}

/// The demand on one tiny pair, with every list of events up to two beyond the bound.
fn check_tiny(reference: &Sheet, device: &Sheet, all: &[Vec<u8>], trace_only: bool) {
    let bound = reference.n as usize * device.n as usize;
    let failed: Vec<bool> = (0..bound as u16)
        .map(|k| fails(reference, device, k, trace_only))
        .collect();
    let outcome = check_demand(reference, device, trace_only, &failed);
    let usable = all.partition_point(|list| list.len() <= bound + 1);
    let expected = nearest(reference, device, &all[..usable], trace_only);
    assert_eq!(parts(&outcome), expected);
    assert!(expected.0.iter().all(|list| list.len() < bound));
    let good = refines(reference, device, &all[..usable], trace_only);
    assert_eq!(good, expected.0.is_none());
}

fn tiny(e: u8) -> (Vec<Sheet>, Vec<Vec<u8>>) {
    let sheets = [all_sheets(e, 1), all_sheets(e, 2)].concat();
    let all = (0..=6).flat_map(|length| lists(e, length)).collect();
    (sheets, all)
}

#[test]
fn the_number_of_tiny_sheets() {
    assert_eq!(all_sheets(1, 1).len(), 3);
    assert_eq!(all_sheets(2, 1).len(), 10);
    assert_eq!(all_sheets(2, 2).len(), 551);
}

#[test]
fn all_pairs_of_one_event() {
    let sheets = [all_sheets(1, 1), all_sheets(1, 2), all_sheets(1, 3)].concat();
    let all: Vec<Vec<u8>> = (0..=12).flat_map(|length| lists(1, length)).collect();
    for (reference, device) in sheets
        .iter()
        .flat_map(|a| sheets.iter().map(move |b| (a, b)))
    {
        for trace_only in [false, true] {
            check_tiny(reference, device, &all, trace_only);
            let bound = u16::from(reference.n) * u16::from(device.n);
            for k in 0..=bound {
                let literal = fails_with(reference, device, k, 0, trace_only);
                assert_eq!(fails(reference, device, k, trace_only), literal);
            }
        }
    }
}

#[test]
fn all_pairs_of_two_events_and_two_nodes() {
    let (sheets, all) = tiny(2);
    for reference in &sheets {
        for device in &sheets {
            check_tiny(reference, device, &all, false);
            check_tiny(reference, device, &all, true);
        }
    }
}

/// A random sheet of exactly this size, each node drawn from all possible nodes.
fn drawn(rng: &mut Rng, e: u8, n: u8) -> Sheet {
    let choices = all_nodes(e, n);
    loop {
        let pick = |_| choices[rng.below(choices.len())].clone();
        let nodes: Vec<(Vec<u8>, Vec<u16>)> = (0..n).map(pick).collect();
        let sheet = Sheet::build(e, &nodes);
        if check(&sheet) == 0 {
            return sheet;
        }
    }
}

/// Three events with two nodes, and two events with three, drawn evenly.
#[test]
fn drawn_pairs_with_every_list_of_events() {
    let mut rng = Rng::new(26);
    for (e, n, rounds) in [(3, 2, 12_000), (2, 3, 4_000)] {
        let longest = usize::from(n) * usize::from(n) + 1;
        let all: Vec<Vec<u8>> = (0..=longest).flat_map(|length| lists(e, length)).collect();
        for _ in 0..rounds {
            let (reference, device) = (drawn(&mut rng, e, n), drawn(&mut rng, e, n));
            check_tiny(&reference, &device, &all, false);
            check_tiny(&reference, &device, &all, true);
        }
    }
}

/// The verdict against runs played by the public calls, with each h up to 7.
#[test]
fn literal_runs_on_tiny_pairs() {
    let (sheets, _) = tiny(2);
    let mut rng = Rng::new(21);
    for _ in 0..3_000 {
        let (reference, device) = (rng.pick(&sheets), rng.pick(&sheets));
        let (k, trace_only) = (rng.below(6) as u16, rng.one_in(3));
        let literal = (0..8).any(|h| fails_with(&reference, &device, k, h, trace_only));
        assert_eq!(fails(&reference, &device, k, trace_only), literal);
    }
}

/// The verdict against every choice number that there is.
#[test]
fn literal_runs_with_every_choice_number() {
    let mut rng = Rng::new(22);
    for round in 0..8 {
        let raw = random_raw(&mut rng, 3, 3);
        let device = device_of(&mut rng, &raw, true).keep();
        let (reference, k) = (raw.keep(), round % 2);
        let literal = (0..=u16::MAX).any(|h| fails_with(&reference, &device, k, h, false));
        assert_eq!(fails(&reference, &device, k, false), literal);
    }
}

/// Pairs with up to four nodes and three events: some unrelated, most drawn from the
/// reference, so that both answers and far violations occur.
#[test]
fn random_small_pairs() {
    let mut rng = Rng::new(23);
    let mut distances = [0u32; 16];
    for round in 0..60_000 {
        let (e, p, q) = (rng.range(1, 3), rng.range(1, 4), rng.range(1, 4));
        let raw = random_raw(&mut rng, e, p);
        let device = match round % 4 {
            0 => random_raw(&mut rng, e, q),
            _ => small_device(&mut rng, &raw),
        };
        let (reference, device) = (raw.keep(), device.keep().with_codes(&raw.codes));
        for trace_only in [false, true] {
            check_small(&reference, &device, trace_only, &mut distances);
        }
    }
    assert!(
        distances[..8].iter().all(|&count| count > 0),
        "{distances:?}"
    );
}

fn small_device(rng: &mut Rng, raw: &model::random::Raw) -> model::random::Raw {
    loop {
        let device = device_of(rng, raw, true);
        if device.nodes.len() <= 8 {
            return device;
        }
    }
}

fn check_small(reference: &Sheet, device: &Sheet, trace_only: bool, distances: &mut [u32; 16]) {
    let bound = u16::from(reference.n) * u16::from(device.n);
    let failed: Vec<bool> = (0..bound)
        .map(|k| fails(reference, device, k, trace_only))
        .collect();
    let outcome = check_demand(reference, device, trace_only, &failed);
    let mut dead = HashSet::new();
    let sheets = (reference, device);
    let search = |length| least_trace(sheets, (0, 0), length, trace_only, &mut dead);
    let expected = (0..bound as usize + 3).find_map(search);
    assert_eq!(parts(&outcome).0, expected);
    assert_eq!(parts(&outcome).1, count_nearer(sheets, expected.as_ref()));
    if let Some(trace) = expected {
        assert!(trace.len() < bound as usize);
        distances[trace.len().min(15)] += 1;
    }
}

/// The pairs reached by common traces shorter than the given one, or by any, found as
/// sets of pairs reached by exactly 0, 1, 2, ... events.
fn count_nearer((reference, device): (&Sheet, &Sheet), trace: Option<&Vec<u8>>) -> usize {
    let limit = trace.map_or(reference.n as usize * device.n as usize, |list| list.len());
    let mut all: HashSet<(u8, u8)> = HashSet::new();
    let mut exact: HashSet<(u8, u8)> = HashSet::from([(0, 0)]);
    for _ in 0..limit {
        all.extend(&exact);
        let steps = exact.iter().flat_map(|&(a, b)| {
            let both = move |event: usize| {
                let (a, b) = (reference.row(a).succ[event], device.row(b).succ[event]);
                (a != 255 && b != 255).then_some((a, b))
            };
            (0..reference.e as usize).filter_map(both)
        });
        exact = steps.collect();
    }
    all.len()
}

/// Pairs of every size: one sweep gives all verdicts; single verdicts are sampled.
#[test]
fn random_large_pairs() {
    let mut rng = Rng::new(24);
    let mut counts = [0u32; 4];
    for _ in 0..250 {
        let (reference, device) = pair(&mut rng);
        let bound = u16::from(reference.n) * u16::from(device.n);
        for trace_only in [false, true] {
            let found = verdicts(&reference, &device, bound, trace_only).expect("accepted");
            let failed: Vec<bool> = found.iter().map(|&one| one == Verdict::Fails).collect();
            let outcome = check_demand(&reference, &device, trace_only, &failed);
            let (trace, cleared) = parts(&outcome);
            assert_eq!(cleared, count_nearer((&reference, &device), trace.as_ref()));
            if let Some(found) = &trace {
                let (sheets, mut dead) = ((&reference, &device), HashSet::new());
                let least = least_trace(sheets, (0, 0), found.len(), trace_only, &mut dead);
                assert_eq!(least.as_ref(), Some(found));
            }
            let k = rng.below(bound as usize) as u16;
            assert_eq!(
                fails(&reference, &device, k, trace_only),
                failed[k as usize]
            );
            let kind = trace.map_or(0, |list| 1 + list.len().min(5) / 2);
            counts[kind.min(3)] += 1;
        }
    }
    assert!(counts.iter().all(|&count| count > 10), "{counts:?}");
}

/// The pair rules with acceptances agree with every event and every set tried.
#[test]
fn pair_rules_agree_with_all_sets() {
    let mut rng = Rng::new(25);
    for _ in 0..300 {
        let (reference, device) = pair(&mut rng);
        let a = rng.below(reference.n as usize) as u8;
        let b = rng.below(device.n as usize) as u8;
        let by_rule = strays(&reference, &device, (a, b)) || refuses(&reference, &device, (a, b));
        assert_eq!(by_rule, violation_at(&reference, &device, (a, b), false));
    }
}
