//! Blocked is not passed: a trace-only run that is blocked below depth k ends as inconclusive, and
//! whether a device can fail a trace-only test stays as it was.

mod common;

use std::collections::BTreeMap;

use common::{compared, fails};
use model::comparison::Outcome;
use model::examples::*;
use model::numbers::{said, step_numbers, Record, Said};
use model::random::{pair, random_record, random_sheet, small_pair, Rng};
use model::sheet::{after, encode, Sheet, NO_NODE};
use model::tests::{open, report, step, Answer, Report, Run};
use model::text::live;
use model::verdict::device_reports;

/// Trace-only, test 5, at node 0 at this depth.
fn at(depth: u16) -> Run {
    Run {
        k: 5,
        trace_only: true,
        depth,
        ..Run::ZERO
    }
}

fn ended(run: Run) -> Run {
    Run { ended: true, ..run }
}

/// A node that may stop, and two that may not: one bound to an event, one to either of two.
fn nodes() -> [Sheet; 3] {
    let choosing = Sheet::build(2, &[([0, 0], [1, 2])]);
    [may_stop(), never_stops(), choosing]
}

#[test]
fn blocked_below_depth_k() {
    for sheet in nodes() {
        for depth in 0..5 {
            let answered = step(&sheet, &at(depth), Report::Blocked);
            assert_eq!(answered, (Answer::Inconclusive, ended(at(depth))));
        }
    }
}

#[test]
fn blocked_at_depth_k() {
    for sheet in nodes() {
        let answered = step(&sheet, &at(5), Report::Blocked);
        assert_eq!(answered, (Answer::Passed, ended(at(5))));
    }
}

#[test]
fn blocked_with_k_0() {
    for sheet in nodes() {
        let (_, run) = open(&sheet, 0, 9, true);
        assert_eq!(
            step(&sheet, &run, Report::Blocked),
            (Answer::Passed, ended(run))
        );
    }
}

#[test]
fn blocked_around_the_highest_test() {
    for (depth, answer) in [
        (0, Answer::Inconclusive),
        (1_022, Answer::Inconclusive),
        (1_023, Answer::Passed),
    ] {
        let run = Run {
            k: 1_023,
            ..at(depth)
        };
        let answered = step(&never_stops(), &run, Report::Blocked);
        assert_eq!(answered, (answer, ended(run)));
    }
}

/// At each node of a sheet with several, whatever the choice number is.
#[test]
fn node_and_depth_stay() {
    let sheet = example_3();
    for node in 0..4 {
        for h in [0, 1, 65_535] {
            let run = Run { node, h, ..at(4) };
            let answered = step(&sheet, &run, Report::Blocked);
            assert_eq!(answered, (Answer::Inconclusive, ended(run)));
        }
    }
}

#[test]
fn other_runs_answer_as_before() {
    for depth in 0..=5 {
        let run = Run {
            trace_only: false,
            ..at(depth)
        };
        let stops = step(&may_stop(), &run, Report::Blocked);
        assert_eq!(stops, (Answer::Passed, ended(run)));
        let refuses = step(&never_stops(), &run, Report::Blocked);
        assert_eq!(refuses, (Answer::Refused(1), ended(run)));
    }
    // below depth k all events are offered, and named
    let below = Run {
        trace_only: false,
        ..at(4)
    };
    let choosing = Sheet::build(3, &[([0, 0, NO_NODE], [1, 2])]);
    assert_eq!(
        step(&choosing, &below, Report::Blocked).0,
        Answer::Refused(7)
    );
}

/// An event is answered as before: outside the initials it is a stray at every depth.
#[test]
fn events_answer_as_before() {
    let sheet = Sheet::build(2, &[([0, NO_NODE], [1])]);
    for depth in 0..=5 {
        let stray = step(&sheet, &at(depth), Report::Event(1));
        assert_eq!(stray, (Answer::Stray(1), ended(at(depth))));
        let inside = step(&sheet, &at(depth), Report::Event(0)).0;
        let expected = match depth {
            5 => Answer::Passed,
            _ => Answer::Going(3),
        };
        assert_eq!(inside, expected);
    }
}

#[test]
fn a_report_after_it_gets_16() {
    let sheet = never_stops();
    let (_, mut run) = open(&sheet, 1, 0, true);
    assert_eq!(
        report(&sheet, &mut run, Report::Blocked),
        Answer::Inconclusive
    );
    let after = run;
    for given in [Report::Blocked, Report::Event(0), Report::Event(1)] {
        assert_eq!(report(&sheet, &mut run, given), Answer::Denied(16));
        assert_eq!(run, after);
    }
}

/// It is not failed, so that no verdict rests on it.
#[test]
fn it_is_not_failed() {
    assert!(!Answer::Inconclusive.failed());
}

#[test]
fn in_numbers() {
    let inconclusive = Said {
        refusal: 0,
        kind: 5,
        value: 0,
    };
    assert_eq!(said(Answer::Inconclusive), inconclusive);
    // the old numbers stay
    let others = [
        (Answer::Going(3), (0, 1, 3)),
        (Answer::Stray(2), (0, 2, 2)),
        (Answer::Refused(6), (0, 3, 6)),
        (Answer::Passed, (0, 4, 0)),
        (Answer::Denied(16), (16, 0, 0)),
    ];
    for (answer, numbers) in others {
        let Said {
            refusal,
            kind,
            value,
        } = said(answer);
        assert_eq!((refusal, kind, value), numbers);
    }
}

/// Any byte but 0 says that the run is trace-only; it stays in the record.
#[test]
fn by_every_byte() {
    let sheet = never_stops();
    for traces in 0..=255 {
        let record = Record {
            k: 5,
            h: 3,
            traces,
            ended: 0,
            node: 0,
            depth: 4,
        };
        for code in [256, 300, 65_535] {
            let numbers = step_numbers(&sheet, &record, code);
            let (kind, value) = if traces == 0 { (3, 1) } else { (5, 0) };
            let answer = Said {
                refusal: 0,
                kind,
                value,
            };
            assert_eq!(numbers.answer, answer);
            assert_eq!(numbers.run, Record { ended: 1, ..record });
            let later = step_numbers(&sheet, &numbers.run, code);
            assert_eq!((later.answer.refusal, later.answer.kind), (16, 0));
            assert_eq!(later.run, numbers.run);
        }
    }
}

/// The program prints the ending as its last line, and reads no further.
#[test]
fn in_live() {
    let printed = |sheet: &Sheet, words: &[&str], typed: &str| {
        live::output(&live::Call {
            file: encode(1, sheet),
            words: words.iter().map(|word| word.to_string()).collect(),
            typed: typed.as_bytes().to_vec(),
        })
    };
    for sheet in [may_stop(), never_stops()] {
        let head = |k| format!("trace-only test {k} choice 0 reference 1 nodes 1 events\n");
        for typed in ["blocked\n", "blocked\r\nevent 0\nblocked\n"] {
            assert_eq!(
                printed(&sheet, &["1", "0", "traces"], typed),
                head(1) + "offer 0\nrun inconclusive\n"
            );
            assert_eq!(
                printed(&sheet, &["0", "0", "traces"], typed),
                head(0) + "offer 0\nrun passed\n"
            );
        }
        assert_eq!(
            printed(&sheet, &["2", "0", "traces"], "event 0\nblocked\n"),
            head(2) + "offer 0\noffer 0\nrun inconclusive\n"
        );
        assert_eq!(
            printed(&sheet, &["1", "0", "traces"], "event 0\nblocked\n"),
            head(1) + "offer 0\noffer 0\nrun passed\n"
        );
    }
    assert_eq!(
        printed(&never_stops(), &["1", "0"], "blocked\n"),
        "test 1 choice 0 reference 1 nodes 1 events\noffer 0\nrun failed refused 1 ( 0 )\n"
    );
}

/// It is the answer to "blocked" on a record that is not refused, trace-only and below depth k, and
/// to nothing else.
#[test]
fn nothing_else_is_inconclusive() {
    let mut rng = Rng::new(61);
    let mut seen = [0; 2];
    for _ in 0..1_000 {
        let sheet = random_sheet(&mut rng);
        let run = random_record(&mut rng, &sheet);
        let good = !run.ended && run.node < sheet.n && run.k <= 1_023;
        let early = good && run.trace_only && run.depth < run.k;
        let events = (0..=255).map(Report::Event);
        for given in events.chain([Report::Blocked]) {
            let inconclusive = step(&sheet, &run, given).0 == Answer::Inconclusive;
            assert_eq!(inconclusive, early && given == Report::Blocked);
            seen[usize::from(inconclusive)] += 1;
        }
    }
    assert!(seen[1] >= 50, "{seen:?}");
}

/// A run that is blocked at times ends within k + 1 accepted reports, and one that is inconclusive
/// within k.
#[test]
fn a_run_ends_within_k_plus_1_accepted_reports() {
    let mut rng = Rng::new(62);
    let mut early = 0;
    for _ in 0..2_000 {
        let sheet = random_sheet(&mut rng);
        let (k, h) = (rng.below(8) as u16, rng.word());
        let (mut answer, mut run) = open(&sheet, k, h, true);
        let mut accepted = 0;
        while let Answer::Going(_) = answer {
            let initials = sheet.initials(run.node);
            let events: Vec<u8> = (0..sheet.e).filter(|i| initials >> i & 1 == 1).collect();
            let given = match events.is_empty() || rng.one_in(6) {
                true => Report::Blocked,
                false => Report::Event(rng.pick(&events)),
            };
            answer = report(&sheet, &mut run, given);
            accepted += 1;
        }
        assert!(run.ended && accepted <= k + 1);
        let inconclusive = answer == Answer::Inconclusive;
        assert_eq!(inconclusive, accepted <= k);
        assert!(inconclusive || answer == Answer::Passed);
        early += usize::from(inconclusive);
    }
    assert!((500..1_500).contains(&early), "{early}");
}

/// How the trace-only runs of a test against a device can end.
#[derive(Default)]
struct Endings {
    failed: usize,
    passed: usize,
    inconclusive: usize,
}

/// Every ending of a trace-only run of test k against a device. The records and device nodes that
/// can be reached are gone through depth by depth; each pair of nodes is taken once at a depth.
fn endings(reference: &Sheet, device: &Sheet, k: u16) -> Endings {
    let mut found = Endings::default();
    let (answer, run) = open(reference, k, 0, true);
    assert_eq!(answer, Answer::Going(reference.alphabet()));
    let mut layer = BTreeMap::from([((0, 0), run)]);
    for _ in 0..=k {
        let mut next = BTreeMap::new();
        for (&(_, at), run) in &layer {
            for given in device_reports(&device.row(at), device.e, reference.alphabet()) {
                let (answer, moved) = step(reference, run, given);
                match (answer, given) {
                    (Answer::Going(_), Report::Event(event)) => {
                        let there = after(device, at, event).expect("an initial");
                        next.insert((moved.node, there), moved);
                    }
                    (Answer::Passed, _) => found.passed += 1,
                    (Answer::Inconclusive, Report::Blocked) => found.inconclusive += 1,
                    _ if answer.failed() => found.failed += 1,
                    _ => panic!("{given:?} was answered by {answer:?}"),
                }
            }
        }
        layer = next;
    }
    assert!(layer.is_empty());
    found
}

/// Whether the device can be at a node that may stop after fewer than k events that both sheets do.
fn may_stop_early(reference: &Sheet, device: &Sheet, k: u16) -> bool {
    let mut layer = vec![(0, 0)];
    for _ in 0..k {
        if layer.iter().any(|&(_, at)| device.row(at).may_stop()) {
            return true;
        }
        let both = |(a, b): (u8, u8)| {
            let steps =
                (0..reference.e).map(move |i| (after(reference, a, i), after(device, b, i)));
            steps.filter_map(|(a, b)| Some((a?, b?)))
        };
        layer = layer.into_iter().flat_map(both).collect();
        layer.sort_unstable();
        layer.dedup();
    }
    false
}

/// A device that trace-refines the reference meets no failure in any trace-only test, also beyond
/// p q; its runs are inconclusive if it may stop early enough. Any other device fails from d on.
#[test]
fn a_device_that_trace_refines_meets_no_failure() {
    let mut rng = Rng::new(63);
    let (mut refining, mut refused, mut inconclusive, mut beyond, mut others) = (0, 0, 0, 0, 0);
    for round in 0..700 {
        let (reference, device) = match round % 35 {
            0 => pair(&mut rng),
            _ => small_pair(&mut rng),
        };
        let pairs = u16::from(reference.n) * u16::from(device.n);
        let numbers = match pairs <= 36 {
            true => vec![0, 1, 2, 3, pairs - 1, pairs, pairs + 1, 40],
            false => vec![0, 1, 5, 12],
        };
        let distance = match compared(&reference, &device, true) {
            Outcome::Refines { .. } => None,
            Outcome::Violates { d, .. } => Some(d),
        };
        refining += usize::from(distance.is_none());
        others += usize::from(distance.is_some());
        let full = compared(&reference, &device, false);
        let refuses = matches!(full, Outcome::Violates { .. });
        refused += usize::from(distance.is_none() && refuses);
        for k in numbers {
            let found = endings(&reference, &device, k);
            let failing = distance.is_some_and(|d| d <= k);
            assert_eq!(found.failed > 0, failing);
            assert_eq!(fails(&reference, &device, k, true), failing);
            let early = may_stop_early(&reference, &device, k);
            assert_eq!(found.inconclusive > 0, early);
            if distance.is_none() && early {
                inconclusive += 1;
                beyond += usize::from(k >= pairs);
            }
        }
    }
    let seen = [refining, refused, inconclusive, beyond, others];
    assert!(seen.iter().all(|&count| count >= 60), "{seen:?}");
}

/// The paper's own pair: the stopped node trace-refines the node that never stops, and passes every
/// trace-only test, though its run of test 1 is inconclusive at once. With refusals it fails.
#[test]
fn the_stopped_node() {
    let (reference, device) = (never_stops(), stopped());
    assert_eq!(
        compared(&reference, &device, true),
        Outcome::Refines { cleared: 1 }
    );
    for k in [0, 1, 2, 1_023] {
        assert!(!fails(&reference, &device, k, true));
        assert!(fails(&reference, &device, k, false));
        let found = endings(&reference, &device, k);
        let expected = if k == 0 { (0, 1, 0) } else { (0, 0, 1) };
        let Endings {
            failed,
            passed,
            inconclusive,
        } = found;
        assert_eq!((failed, passed, inconclusive), expected);
    }
}
