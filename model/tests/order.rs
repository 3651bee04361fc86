//! 02, K3: the probes of a node by how many events a probe has, then by number; a run's choice and
//! the probe that a comparison names follow.

mod common;

use common::{before, compared, events_in};
use model::comparison::{Named, Outcome, MAX_WORDS};
use model::examples::example_3;
use model::planted::comparisons::{compare_with, CompareFault};
use model::probes::{fill, probes, probes_of};
use model::random::{antichain, crowded_sheet, full_sheet, pair, random_sheet, refusing_pair, Rng};
use model::sheet::{encode, Sheet, NO_NODE};
use model::small::antichains;
use model::tests::{open, report, step, Answer, Report, Run};
use model::text::{compare, live, probe_list};

/// One node of three events, all looping, with given acceptances.
fn looping(sets: &[u16]) -> Sheet {
    Sheet::build(3, &[([0, 0, 0], sets)])
}

/// The list by its definition: for each size, in turn, every set of so many events, ascending,
/// that meets every acceptance and does not without any one of its events.
fn literal(sets: &[u16], e: u8) -> Vec<u16> {
    let meets = |set: u16| sets.iter().all(|acceptance| acceptance & set != 0);
    let one_less = |set: u16| (0..e).map(move |event| set & !(1 << event));
    let minimal = |set: u16| !one_less(set).any(|less| less != set && meets(less));
    let mut list = Vec::new();
    for size in 0..=usize::from(e) {
        let of_size = (0..1u32 << e)
            .map(|set| set as u16)
            .filter(|&set| events_in(set) == size);
        list.extend(of_size.filter(|&set| meets(set) && minimal(set)));
    }
    list
}

fn check_list(sets: &[u16], e: u8) -> Vec<u16> {
    let list = probes_of(sets, e);
    assert_eq!(list, literal(sets, e), "{sets:?} of {e} events");
    assert!(list.windows(2).all(|two| before(two[0], two[1])));
    list
}

#[test]
fn whole_lists() {
    assert_eq!(probes_of(&[5, 6], 3), [4, 3]);
    assert_eq!(probes_of(&[7, 9, 10], 4), [3, 9, 10, 12]);
    assert_eq!(probes_of(&[9, 10, 12], 4), [8, 7]);
    assert_eq!(probes_of(&[3, 28], 5), [5, 6, 9, 10, 17, 18]);
    assert_eq!(probes_of(&[17, 18, 12], 5), [20, 24, 7, 11]);
    assert_eq!(probes_of(&[33, 34, 36, 40, 48], 6), [32, 31]);
    // the last of 12 events, or all the others
    let pairs: Vec<u16> = (0..11).map(|event| 1 << 11 | 1 << event).collect();
    assert_eq!(probes_of(&pairs, 12), [2_048, 2_047]);
    // event 8 or both 0 and 1, and event 9 or all of 2, 3, 4: just the other way round than by number
    assert_eq!(
        probes_of(&[257, 258, 516, 520, 528], 10),
        [768, 515, 284, 31]
    );
}

#[test]
fn the_list_by_its_definition() {
    for e in 1..=4u8 {
        for sets in antichains((1 << e) - 1) {
            check_list(&sets, e);
        }
    }
    let mut rng = Rng::new(51);
    let (mut moved, mut sizes) = (0, 0);
    for round in 0..300 {
        let e = 1 + round % 12;
        let list = check_list(&antichain(&mut rng, (1 << e) - 1, 16), e as u8);
        let ascends = list.windows(2).all(|two| two[0] < two[1]);
        moved += usize::from(!ascends);
        let some = list.iter().map(|&probe| events_in(probe));
        sizes = sizes.max(some.collect::<std::collections::BTreeSet<_>>().len());
    }
    assert!(moved >= 50 && sizes >= 4, "{moved} {sizes}");
}

/// Nothing but the order of a list has changed: its probes and their number are what they were.
#[test]
fn the_same_probes_as_by_number() {
    let mut rng = Rng::new(52);
    for round in 0..60 {
        let sheet = match round % 3 {
            0 => random_sheet(&mut rng),
            1 => full_sheet(&mut rng),
            _ => crowded_sheet(&mut rng),
        };
        let sets = sheet.row(0).acceptances().to_vec();
        let mut ascending = literal(&sets, sheet.e);
        ascending.sort_unstable();
        let list = probes(&sheet, 0);
        let mut sorted = list.clone();
        sorted.sort_unstable();
        assert_eq!(sorted, ascending);
        let mut lent = vec![9; list.len() + 2];
        assert_eq!(fill(&sheet, 0, &mut lent), Ok(list.len()));
        assert_eq!(lent, [&list[..], &[9, 9]].concat());
        if !list.is_empty() {
            let short = &mut vec![9; list.len() - 1];
            assert_eq!(fill(&sheet, 0, short), Err(10));
            assert!(short.iter().all(|&place| place == 9));
        }
    }
}

#[test]
fn runs_choose_on_the_list() {
    let sheet = looping(&[5, 6]);
    for (h, probe) in [(0, 4), (1, 3), (2, 4), (3, 3), (65_534, 4), (65_535, 3)] {
        let (first, run) = open(&sheet, 0, h, false);
        assert_eq!(first, Answer::Going(probe), "{h}");
        assert_eq!(
            step(&sheet, &run, Report::Blocked).0,
            Answer::Refused(probe)
        );
        for event in 0..3 {
            let offered = probe >> event & 1 == 1;
            let answer = match offered {
                true => Answer::Passed,
                false => Answer::Denied(17),
            };
            assert_eq!(step(&sheet, &run, Report::Event(event)).0, answer);
        }
        // below depth k and in a trace-only run all events are offered
        assert_eq!(open(&sheet, 1, h, false).0, Answer::Going(7));
        assert_eq!(open(&sheet, 0, h, true).0, Answer::Going(7));
    }
}

/// The events outside the initials are offered with the probe.
#[test]
fn runs_choose_with_events_outside() {
    let sheet = Sheet::build(5, &[([0, 0, 0, NO_NODE, NO_NODE], [5, 6])]);
    assert_eq!(open(&sheet, 0, 0, false).0, Answer::Going(4 | 24));
    assert_eq!(open(&sheet, 0, 1, false).0, Answer::Going(3 | 24));
}

/// The choice stays through a run: example 3's node 1 has the acceptances 5 and 6, node 2 has 1 and 6.
#[test]
fn a_run_chooses_where_it_ends() {
    let sheet = example_3();
    for (h, at_1, at_2) in [(0, 4, 3), (1, 3, 5)] {
        let (_, mut run) = open(&sheet, 1, h, false);
        let there = report(&sheet, &mut run, Report::Event(0));
        assert_eq!((there, run.node), (Answer::Going(at_1), 1));
        let (_, mut run) = open(&sheet, 2, h, false);
        assert_eq!(report(&sheet, &mut run, Report::Event(0)), Answer::Going(7));
        let there = report(&sheet, &mut run, Report::Event(2));
        assert_eq!((there, run.node), (Answer::Going(at_2), 2));
        let expected = Run {
            k: 2,
            h,
            node: 2,
            depth: 2,
            ..Run::ZERO
        };
        assert_eq!(run, expected);
    }
}

fn refused(sets: &[u16], others: &[u16]) -> (u16, u16) {
    match compared(&looping(sets), &looping(others), false) {
        Outcome::Violates {
            d: 0,
            cleared: 0,
            named: Named::Refused { probe, acceptance },
            ..
        } => (probe, acceptance),
        outcome => panic!("{outcome:?}"),
    }
}

/// The first probe of the list that some device acceptance misses is named, and beside it the
/// lowest acceptance that misses that probe.
#[test]
fn comparisons_name_on_the_list() {
    assert_eq!(refused(&[5, 6], &[0]), (4, 0));
    assert_eq!(refused(&[5, 6], &[1]), (4, 1));
    assert_eq!(refused(&[5, 6], &[1, 2]), (4, 1));
    assert_eq!(refused(&[5, 6], &[4]), (3, 4));
    // 4 is missed by 3 alone, 3 by 4 alone: the acceptance goes with the probe
    assert_eq!(refused(&[5, 6], &[3, 4]), (4, 3));
    assert_eq!(refused(&[3, 5, 6], &[0]), (3, 0));
    assert_eq!(refused(&[1, 6], &[0]), (3, 0));
    assert_eq!(refused(&[6], &[5]), (2, 5));
}

/// The order shows in what is named alone: d, cleared and the trace are those of a list by number.
#[test]
fn nothing_else_follows() {
    let mut rng = Rng::new(53);
    let (mut other_probes, mut other_acceptances) = (0, 0);
    for round in 0..600 {
        let (reference, device) = match round % 3 {
            0 => pair(&mut rng),
            _ => refusing_pair(&mut rng),
        };
        for trace_only in [false, true] {
            let plain = compared(&reference, &device, trace_only);
            let by_number = compared_by_number(&reference, &device, trace_only);
            if let (Some(plain), Some(other)) = (names(&plain), names(&by_number)) {
                other_probes += usize::from(plain.0 != other.0);
                other_acceptances += usize::from(plain.1 != other.1);
                assert!(plain == other || before(plain.0, other.0) && other.0 < plain.0);
            }
            assert_eq!(unnamed(plain), unnamed(by_number));
        }
    }
    assert!(other_probes >= 100 && other_acceptances >= 50);
}

/// The comparison with a list by number.
fn compared_by_number(reference: &Sheet, device: &Sheet, trace_only: bool) -> Outcome {
    let (work, list) = (&mut [7; MAX_WORDS], &mut [7; 1_023]);
    let fault = CompareFault::ByNumber;
    compare_with(fault, reference, device, trace_only, work, list).expect("accepted")
}

/// The probe and the acceptance that a comparison names.
fn names(outcome: &Outcome) -> Option<(u16, u16)> {
    match *outcome {
        Outcome::Violates {
            named: Named::Refused { probe, acceptance },
            ..
        } => Some((probe, acceptance)),
        _ => None,
    }
}

/// An answer with the same numbers in place of every probe and acceptance.
fn unnamed(mut outcome: Outcome) -> Outcome {
    if let Outcome::Violates {
        named: Named::Refused { probe, acceptance },
        ..
    } = &mut outcome
    {
        (*probe, *acceptance) = (0, 0);
    }
    outcome
}

/// The programs follow.
#[test]
fn texts_follow() {
    let (reference, device) = (looping(&[5, 6]), looping(&[3, 4]));
    let bytes = encode(1, &reference);
    let listed = "sheet 1 nodes 3 events\nnode 0 probes 4 ( 2 ) 3 ( 0 1 )\n";
    assert_eq!(probe_list::output(&bytes), listed);
    let both = [bytes.clone(), encode(1, &device)].concat();
    let text = "reference 1 nodes 3 events
device 1 nodes 3 events
violates after 0 cleared 0
trace
refused 4 by 3
";
    assert_eq!(compare::output(&both), text);
    for (h, events, last) in [("0", "2", "4 ( 2 )"), ("1", "0 1", "3 ( 0 1 )")] {
        let call = live::Call {
            file: bytes.clone(),
            words: vec!["0".to_string(), h.to_string()],
            typed: b"blocked\n".to_vec(),
        };
        let text = format!(
            "test 0 choice {h} reference 1 nodes 3 events\noffer {events}\nrun failed refused {last}\n"
        );
        assert_eq!(live::output(&call), text);
    }
}
