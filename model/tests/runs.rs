//! Live runs: offers, endings, and the record.

mod common;

use model::examples::*;
use model::random::{random_record, random_report, random_sheet, Rng};
use model::sheet::{after, Sheet, NO_NODE};
use model::tests::{offer, open, report, step, Answer, Report, Run};

#[test]
fn a_run_of_the_program_pair() {
    let (sheet, _) = program_pair();
    let (first, mut run) = open(&sheet, 5, 3, false);
    assert_eq!(first, Answer::Going(3));
    for _ in 0..4 {
        assert_eq!(report(&sheet, &mut run, Report::Event(0)), Answer::Going(3));
    }
    // At depth 5 the probes of node 1 are 1 and 2; 3 remainder 2 is 1.
    assert_eq!(report(&sheet, &mut run, Report::Event(1)), Answer::Going(2));
    assert_eq!((run.node, run.depth), (1, 5));
    let before = run;
    assert_eq!(
        report(&sheet, &mut run, Report::Event(0)),
        Answer::Denied(17)
    );
    assert_eq!(
        report(&sheet, &mut run, Report::Blocked),
        Answer::Refused(2)
    );
    assert_eq!(
        run,
        Run {
            ended: true,
            ..before
        }
    );
    assert_eq!(
        report(&sheet, &mut run, Report::Blocked),
        Answer::Denied(16)
    );
}

#[test]
fn offers_have_the_events_outside_the_initials() {
    let sheet = example_3();
    // Node 3: probes 2 and 4, event 0 outside.
    let at = |h: u16| Run {
        k: 4,
        h,
        depth: 4,
        node: 3,
        ..Run::ZERO
    };
    assert_eq!(offer(&sheet, &at(0)), 1 | 2);
    assert_eq!(offer(&sheet, &at(1)), 1 | 4);
    assert_eq!(offer(&sheet, &at(65_535)), 1 | 4);
    assert_eq!(step(&sheet, &at(0), Report::Event(0)).0, Answer::Stray(0));
    assert_eq!(step(&sheet, &at(0), Report::Blocked).0, Answer::Refused(3));
    assert_eq!(step(&sheet, &at(0), Report::Event(1)).0, Answer::Passed);
    let below = Run { depth: 3, ..at(0) };
    assert_eq!(offer(&sheet, &below), 7);
    assert_eq!(step(&sheet, &below, Report::Blocked).0, Answer::Refused(7));
    assert_eq!(step(&sheet, &below, Report::Event(0)).0, Answer::Stray(0));
}

#[test]
fn nodes_that_may_stop() {
    let sheet = Sheet::build(2, &[([0, NO_NODE], [0])]);
    let (first, run) = open(&sheet, 0, 9, false);
    assert_eq!(first, Answer::Going(2));
    assert_eq!(step(&sheet, &run, Report::Blocked).0, Answer::Passed);
    assert_eq!(step(&sheet, &run, Report::Event(1)).0, Answer::Stray(1));
    assert_eq!(step(&sheet, &run, Report::Event(0)).0, Answer::Denied(17));
    // An empty first offer is still an offer: only blocked can follow.
    let (first, run) = open(&may_stop(), 0, 0, false);
    assert_eq!(first, Answer::Going(0));
    assert_eq!(
        step(&may_stop(), &run, Report::Event(0)).0,
        Answer::Denied(17)
    );
    assert_eq!(step(&may_stop(), &run, Report::Blocked).0, Answer::Passed);
    // Below depth k, blocked passes as well.
    let (_, run) = open(&may_stop(), 3, 0, false);
    assert_eq!(step(&may_stop(), &run, Report::Blocked).0, Answer::Passed);
}

#[test]
fn trace_only_runs() {
    let sheet = example_3();
    let (first, mut run) = open(&sheet, 1, 0, true);
    assert_eq!(first, Answer::Going(7));
    assert_eq!(step(&sheet, &run, Report::Blocked).0, Answer::Inconclusive);
    assert_eq!(step(&sheet, &run, Report::Event(2)).0, Answer::Stray(2));
    assert_eq!(report(&sheet, &mut run, Report::Event(0)), Answer::Going(7));
    let at_k = run;
    assert_eq!(step(&sheet, &run, Report::Blocked).0, Answer::Passed);
    assert_eq!(report(&sheet, &mut run, Report::Event(2)), Answer::Passed);
    assert_eq!(
        run,
        Run {
            ended: true,
            ..at_k
        }
    );
}

/// The rules again, as a table of conditions on one report, for any record.
fn expected(sheet: &Sheet, run: &Run, given: Report) -> Answer {
    let offered = |run: &Run| offer(sheet, run);
    let outside = |run: &Run| run.node >= sheet.n || run.depth > run.k || run.k > 1_023;
    match given {
        _ if run.ended => Answer::Denied(16),
        _ if outside(run) => Answer::Denied(9),
        Report::Event(event) if event >= sheet.e => Answer::Denied(15),
        Report::Event(event) if offered(run) & 1 << event == 0 => Answer::Denied(17),
        Report::Blocked if run.trace_only && run.depth < run.k => Answer::Inconclusive,
        Report::Blocked if run.trace_only => Answer::Passed,
        Report::Blocked if sheet.row(run.node).sets[0] == 0 => Answer::Passed,
        Report::Blocked => Answer::Refused(offered(run)),
        Report::Event(event) => match after(sheet, run.node, event) {
            None => Answer::Stray(event),
            Some(_) if run.depth == run.k => Answer::Passed,
            Some(node) => {
                let depth = run.depth + 1;
                Answer::Going(offered(&Run {
                    node,
                    depth,
                    ..*run
                }))
            }
        },
    }
}

#[test]
fn random_reports() {
    let mut rng = Rng::new(11);
    let mut seen = std::collections::BTreeMap::new();
    for _ in 0..600 {
        let sheet = random_sheet(&mut rng);
        for _ in 0..5 {
            let run = random_record(&mut rng, &sheet);
            let given = random_report(&mut rng, &sheet);
            let (answer, altered) = step(&sheet, &run, given);
            assert_eq!(answer, expected(&sheet, &run, given));
            let kind = match answer {
                Answer::Denied(number) => {
                    assert_eq!(altered, run);
                    number
                }
                Answer::Going(_) => 0,
                _ => {
                    assert_eq!(altered, Run { ended: true, ..run });
                    let unclear = answer == Answer::Inconclusive;
                    1 + u8::from(answer.failed()) + 2 * u8::from(unclear)
                }
            };
            *seen.entry(kind).or_insert(0) += 1;
        }
    }
    assert_eq!(
        seen.keys().copied().collect::<Vec<u8>>(),
        [0, 1, 2, 3, 9, 15, 16, 17]
    );
}

#[test]
fn a_run_ends_within_k_plus_1_accepted_reports() {
    let mut rng = Rng::new(12);
    for _ in 0..300 {
        let sheet = random_sheet(&mut rng);
        let (k, h, trace_only) = (rng.below(6) as u16, rng.word(), rng.one_in(2));
        let (mut answer, mut run) = open(&sheet, k, h, trace_only);
        let mut accepted = 0;
        while let Answer::Going(set) = answer {
            let events: Vec<u8> = (0..sheet.e).filter(|event| set >> event & 1 == 1).collect();
            let given = if events.is_empty() {
                Report::Blocked
            } else {
                Report::Event(rng.pick(&events))
            };
            answer = report(&sheet, &mut run, given);
            accepted += 1;
        }
        assert!(run.ended && accepted <= k + 1);
    }
}
