//! Every refusal number, its condition, its order, and what it leaves alone.

mod common;

use model::comparison::compare;
use model::examples::*;
use model::faults::{read_with, Fault};
use model::probes::list;
use model::sheet::{check, encode, read, Sheet, NO_NODE};
use model::tests::{open, report, step, verdict, Answer, Report, Run};

/// A good sheet of two nodes and two events, as bytes: 19 of them.
fn good() -> Vec<u8> {
    PROGRAM_INPUT[..19].to_vec()
}

/// The bytes with some places changed and a right length field.
fn changed(changes: &[(usize, u8)]) -> Vec<u8> {
    let mut bytes = good();
    for &(place, value) in changes {
        bytes[place] = value;
    }
    bytes
}

fn with_length(mut bytes: Vec<u8>) -> Vec<u8> {
    let follow = bytes.len() as u32 - 4;
    bytes[..4].copy_from_slice(&follow.to_be_bytes());
    bytes
}

#[test]
fn reading_1_to_3() {
    assert_eq!(read(&[]), Err(1));
    assert_eq!(read(&[0, 0, 0, 2, 1, 1]), Err(1));
    assert_eq!(read(&[0, 0, 0, 3, 1, 1, 1]), Err(4));
    for field in [0, 14, 16, 19, u32::MAX, u32::MAX - 3] {
        let mut bytes = good();
        bytes[..4].copy_from_slice(&field.to_be_bytes());
        assert_eq!(read(&bytes), Err(1), "{field}");
    }
    assert_eq!(read(&changed(&[(4, 0)])), Err(2));
    assert_eq!(read(&changed(&[(4, 3), (5, 0)])), Err(2));
    for (place, value) in [(5, 0), (5, 13), (6, 0), (6, 33), (5, 255), (6, 255)] {
        assert_eq!(read(&changed(&[(place, value)])), Err(3));
    }
}

#[test]
fn reading_4_and_5_by_position() {
    for length in 7..19 {
        assert_eq!(read(&with_length(good()[..length].to_vec())), Err(4));
    }
    assert_eq!(read(&with_length([good(), vec![0]].concat())), Err(4));
    for count in [0, 17, 200, 255] {
        assert_eq!(read(&changed(&[(9, count)])), Err(5));
        let cut = changed(&[(9, count)])[..10].to_vec();
        assert_eq!(read(&with_length(cut)), Err(5));
    }
    assert_eq!(read(&changed(&[(9, 16)])), Err(4));
    // A wrong C of the last node with bytes left over after it.
    let more = [changed(&[(16, 17)]), vec![0; 3]].concat();
    assert_eq!(read(&with_length(more)), Err(5));
}

#[test]
fn reading_6_to_8() {
    for value in [2, 3, 254] {
        assert_eq!(read(&changed(&[(7, value)])), Err(6));
        assert_eq!(read(&changed(&[(15, value), (11, 2)])), Err(6));
    }
    // Node 0 has the sets 1, 2 at the places 10 to 13; node 1 the set 3 at 17 and 18.
    let broken: [&[(usize, u8)]; 7] = [
        &[(11, 2)],
        &[(11, 3)],
        &[(13, 3)],
        &[(13, 4)],
        &[(11, 0)],
        &[(14, NO_NODE)],
        &[(17, 16)],
    ];
    for changes in broken {
        assert_eq!(read(&changed(changes)), Err(7), "{changes:?}");
    }
    let far = Sheet::build(3, &[([0, 0, 0], [1u16, 2, 5])]);
    assert_eq!(read(&encode(1, &far)), Err(7));
    assert_eq!(read(&changed(&[(7, 0), (8, 0)])), Err(8));
    assert_eq!(read(&changed(&[(7, 0), (8, 0), (11, 2)])), Err(7));
}

#[test]
fn a_refused_reading_answers_zeros() {
    for bytes in [vec![], changed(&[(4, 3)]), changed(&[(7, 0), (8, 0)])] {
        assert_eq!(read_with(Fault::None, &bytes).sheet, Sheet::ZERO);
    }
    assert_eq!(check(&Sheet::ZERO), 3);
}

#[test]
fn kept_sheets_are_checked_in_order() {
    let good = program_pair().0;
    let with = |change: fn(&mut Sheet)| {
        let mut sheet = good;
        change(&mut sheet);
        check(&sheet)
    };
    assert_eq!(check(&good), 0);
    assert_eq!(with(|s| s.e = 13), 3);
    assert_eq!(with(|s| s.n = 0), 3);
    assert_eq!(with(|s| s.rows[1].c = 17), 5);
    assert_eq!(with(|s| s.rows[1].c = 0), 5);
    assert_eq!(with(|s| s.rows[2].c = 17), 7);
    assert_eq!(with(|s| s.rows[31].c = 1), 7);
    assert_eq!(with(|s| s.rows[0].succ[1] = 2), 6);
    assert_eq!(with(|s| s.rows[0].succ[2] = 40), 7);
    assert_eq!(with(|s| s.rows[0].succ[2] = 0), 7);
    assert_eq!(with(|s| s.rows[9].succ[0] = 0), 7);
    assert_eq!(with(|s| s.rows[0].sets[2] = 1), 7);
    assert_eq!(with(|s| s.rows[30].sets[15] = 1), 7);
    assert_eq!(with(|s| s.rows[0].sets[1] = 1), 7);
    assert_eq!(with(|s| s.rows[0].succ = [0; 12]), 7);
    assert_eq!(with(|s| (s.rows[0].succ[0], s.rows[0].succ[1]) = (0, 0)), 8);
    // Of two faults the one with the lower number is given.
    assert_eq!(with(|s| (s.rows[9].succ[0], s.rows[0].succ[0]) = (0, 2)), 6);
    assert_eq!(with(|s| (s.rows[0].c, s.rows[0].succ[0]) = (0, 2)), 5);
}

#[test]
fn later_calls_check_the_sheets_first() {
    let (good, device) = program_pair();
    let (mut three, mut seven) = (good, good);
    three.e = 0;
    seven.rows[9].c = 1;
    let ended = Run {
        ended: true,
        ..Run::ZERO
    };
    assert_eq!(list(&three, 99, 0), Err(3));
    assert_eq!(
        open(&seven, 2_000, 0, false),
        (Answer::Denied(7), Run::ZERO)
    );
    assert_eq!(
        step(&seven, &ended, Report::Blocked),
        (Answer::Denied(7), ended)
    );
    for (reference, other, expected) in [
        (&three, &seven, 3),
        (&seven, &three, 7),
        (&good, &three, 3),
        (&seven, &device, 7),
        (&good, &stopped(), 11),
    ] {
        assert_eq!(verdict(reference, other, 2_000, false), Err(expected));
        assert_eq!(compare(reference, other, true, 0, 0), Err(expected));
    }
    assert_eq!(verdict(&good, &device, 1_024, true), Err(14));
}

#[test]
fn probe_calls() {
    let sheet = program_pair().0;
    assert_eq!(list(&sheet, 2, 0), Err(9));
    assert_eq!(list(&sheet, 255, 100), Err(9));
    assert_eq!(list(&sheet, 0, 0), Err(10));
    assert_eq!(list(&sheet, 1, 1), Err(10));
    assert_eq!(list(&sheet, 1, 2), Ok(vec![1, 2]));
    assert_eq!(list(&stopped(), 0, 0), Ok(vec![]));
}

#[test]
fn reports_16_9_15_17() {
    let sheet = example_3();
    let run = Run {
        k: 2,
        depth: 2,
        node: 1,
        ..Run::ZERO
    };
    // Node 1 has all three events; probe 0 is 4, so only event 2 is offered; probe 1 is 3.
    let denied = |run: Run, report: Report, number: u8| {
        assert_eq!(step(&sheet, &run, report), (Answer::Denied(number), run));
    };
    denied(run, Report::Event(0), 17);
    denied(run, Report::Event(1), 17);
    denied(Run { h: 1, ..run }, Report::Event(2), 17);
    denied(run, Report::Event(3), 15);
    denied(run, Report::Event(255), 15);
    for bad in [
        Run { node: 4, ..run },
        Run { depth: 3, ..run },
        Run { k: 1_024, ..run },
        Run { k: 65_535, ..run },
    ] {
        denied(bad, Report::Blocked, 9);
        denied(bad, Report::Event(255), 9);
        denied(Run { ended: true, ..bad }, Report::Event(255), 16);
    }
    denied(Run { ended: true, ..run }, Report::Event(0), 16);
    let mut kept = run;
    assert_eq!(
        report(&sheet, &mut kept, Report::Event(1)),
        Answer::Denied(17)
    );
    assert_eq!(kept, run);
}
