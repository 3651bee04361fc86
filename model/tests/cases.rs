//! The cases of the scope paper.

mod common;

use common::{compared, fails};
use model::comparison::{compare, compare_into, Named, Outcome};
use model::examples::*;
use model::probes::{fill, list, probes, probes_of};
use model::random::{random_raw, Rng};
use model::sheet::{check, encode, read, Sheet, MAX_BYTES, NO_NODE};
use model::tests::{open, verdict, Answer, Verdict};
use model::text::compare::output;

/// A one-node sheet of three events, all looping, with given acceptances.
fn looping(sets: &[u16]) -> Sheet {
    Sheet::build(3, &[([0, 0, 0], sets)])
}

fn case_sheets() -> Vec<Sheet> {
    let (a, b) = program_pair();
    let (c, d) = stray_pair();
    let sets: [&[u16]; 6] = [&[3], &[3, 6], &[1, 2], &[3, 5, 6], &[0], &[5, 6]];
    let mut sheets = vec![a, b, c, d, may_stop(), never_stops(), stopped()];
    sheets.extend(sets.iter().map(|sets| looping(sets)));
    sheets
}

#[test]
fn probe_cases() {
    let cases: [(&[u16], &[u16]); 8] = [
        (&[3], &[1, 2]),
        (&[3, 6], &[2, 5]),
        (&[1, 2], &[3]),
        (&[3, 5, 6], &[3, 5, 6]),
        (&[0], &[]),
        (&[5, 6], &[4, 3]),
        (&[1, 6], &[3, 5]),
        (&[6], &[2, 4]),
    ];
    for (sets, expected) in cases {
        assert_eq!(probes_of(sets, 3), expected);
        assert_eq!(
            list(&looping(sets), 0, expected.len()),
            Ok(expected.to_vec())
        );
    }
}

#[test]
fn program_pair_reads_and_is_judged() {
    let (reference, device) = program_pair();
    assert_eq!(read(&PROGRAM_INPUT[..19]), Ok(reference));
    assert_eq!(read(&PROGRAM_INPUT[19..]), Ok(device));
    assert_eq!(output(&PROGRAM_INPUT), PROGRAM_OUTPUT);
    let verdicts: Vec<bool> = (0..=6)
        .map(|k| fails(&reference, &device, k, false))
        .collect();
    assert_eq!(verdicts, [false, false, false, false, false, true, false]);
}

#[test]
fn comparison_cases() {
    let (reference, device) = stray_pair();
    let expected = Outcome::Violates {
        d: 0,
        cleared: 0,
        trace: vec![],
        named: Named::Stray(1),
    };
    assert_eq!(compared(&reference, &device, false), expected);
    assert_eq!(
        compared(&may_stop(), &stopped(), false),
        Outcome::Refines { cleared: 1 }
    );
    let expected = Outcome::Violates {
        d: 0,
        cleared: 0,
        trace: vec![],
        named: Named::Refused {
            probe: 1,
            acceptance: 0,
        },
    };
    assert_eq!(compared(&never_stops(), &stopped(), false), expected);
}

#[test]
fn case_sheets_refine_themselves() {
    for sheet in case_sheets() {
        assert_eq!(check(&sheet), 0);
        assert_eq!(read(&encode(1, &sheet)), Ok(sheet));
        for trace_only in [false, true] {
            let outcome = compared(&sheet, &sheet, trace_only);
            assert!(matches!(outcome, Outcome::Refines { .. }));
        }
    }
}

#[test]
fn range_cases() {
    let mut rng = Rng::new(1);
    for (e, n, expected) in [
        (12, 32, 0),
        (12, 33, 3),
        (13, 32, 3),
        (1, 1, 0),
        (13, 33, 3),
    ] {
        let raw = random_raw(&mut rng, e, n);
        assert_eq!(read(&raw.bytes()).err().unwrap_or(0), expected);
        assert_eq!(check(&raw.keep()), expected);
    }
    let level = |size: u32| (0..1u16 << 12).filter(move |set| set.count_ones() == size);
    for (count, expected) in [(16, 0), (17, 5), (1, 0)] {
        let sets: Vec<u16> = level(6).take(count).collect();
        let raw = model::random::Raw::new(12, vec![(vec![0; 12], sets)]);
        assert_eq!(read(&raw.bytes()).err().unwrap_or(0), expected);
        assert_eq!(check(&raw.keep()), expected);
    }
}

#[test]
fn the_largest_sheet_has_1471_bytes() {
    let sets: Vec<u16> = (0..1u16 << 12)
        .filter(|set| set.count_ones() == 6)
        .take(16)
        .collect();
    let nodes: Vec<([u8; 12], Vec<u16>)> = (0..32)
        .map(|node| ([(node + 1) % 32; 12], sets.clone()))
        .collect();
    let sheet = Sheet::build(12, &nodes);
    let bytes = encode(2, &sheet);
    assert_eq!((bytes.len(), MAX_BYTES), (1_471, 1_471));
    assert_eq!(encode(1, &sheet).len(), 1_447);
    assert_eq!(read(&bytes), Ok(sheet));
    let mut more = [bytes, vec![0]].concat();
    more[3] += 1;
    assert_eq!(read(&more), Err(4));
    assert_eq!(
        compared(&sheet, &sheet, false),
        Outcome::Refines { cleared: 32 }
    );
}

#[test]
fn test_number_cases() {
    let (reference, device) = program_pair();
    assert_eq!(open(&reference, 1_023, 0, false).0, Answer::Going(3));
    assert_eq!(open(&reference, 1_024, 0, false).0, Answer::Denied(14));
    assert_eq!(open(&reference, 1_024, 0, true).0, Answer::Denied(14));
    // The refusal is at depths 5, 11, 17 and so on: 1,019 is one of them, 1,023 is not.
    assert_eq!(
        verdict(&reference, &device, 1_019, false),
        Ok(Verdict::Fails)
    );
    assert_eq!(
        verdict(&reference, &device, 1_023, false),
        Ok(Verdict::Passes)
    );
    assert_eq!(verdict(&reference, &device, 1_024, false), Err(14));
    assert_eq!(
        verdict(&reference, &device, 1_023, true),
        Ok(Verdict::Passes)
    );
}

#[test]
fn list_length_cases() {
    let sheet = looping(&[3, 5, 6]);
    let mut three = [9; 4];
    assert_eq!(fill(&sheet, 0, &mut three), Ok(3));
    assert_eq!(three, [3, 5, 6, 9]);
    let mut two = [9; 2];
    assert_eq!(fill(&sheet, 0, &mut two), Err(10));
    assert_eq!(two, [9; 2]);
    assert_eq!(probes(&sheet, 0), [3, 5, 6]);
    let (reference, device) = program_pair();
    assert_eq!(compare(&reference, &device, false, 11, 5), Err(12));
    assert_eq!(compare(&reference, &device, false, 11, 4), Err(12));
    assert_eq!(compare(&reference, &device, true, 11, 5), Err(12));
    assert_eq!(compare(&reference, &device, true, 12, 4), Err(13));
    let (stray, other) = stray_pair();
    assert_eq!(compare(&stray, &other, false, 1, 0), Err(12));
    assert!(compare(&stray, &other, false, 2, 0).is_ok());
    let (reference, device) = theorem_5_lenient(32, 32);
    assert_eq!(compare(&reference, &device, false, 2_047, 1_023), Err(12));
    let outcome = compare(&reference, &device, false, 2_048, 1_023);
    assert!(matches!(outcome, Ok(Outcome::Violates { d: 1_023, .. })));
}

/// 02, K7: 2·p·q words are enough, and every answer is the one that a larger list gave.
#[test]
fn a_larger_work_list_changes_no_answer() {
    let (reference, device) = program_pair();
    for trace_only in [false, true] {
        let larger = compare(&reference, &device, trace_only, 18, 5);
        assert!(larger.is_ok());
        for words in [12, 13, 17, 20, 2_048] {
            let outcome = compare(&reference, &device, trace_only, words, 5);
            assert_eq!(outcome, larger, "{words}");
        }
    }
}

#[test]
fn final_content_of_lists() {
    let (reference, device) = program_pair();
    for words in [12, 13, 17, 18, 20] {
        let (mut work, mut trace) = (vec![7u16; words], [7u8; 7]);
        assert!(compare_into(&reference, &device, false, &mut work, &mut trace).is_ok());
        assert_eq!(work[..12], [0; 12]);
        assert!(work[12..].iter().all(|&word| word == 7), "{words}");
        assert_eq!(trace, [0, 0, 0, 0, 0, 7, 7]);
    }
    let (mut work, mut trace) = ([7u16; 11], [7u8; 5]);
    assert_eq!(
        compare_into(&reference, &device, false, &mut work, &mut trace),
        Err(12)
    );
    assert_eq!((work, trace), ([7; 11], [7; 5]));
    let (mut work, mut trace) = ([7u16; 12], [7u8; 4]);
    assert_eq!(
        compare_into(&reference, &device, false, &mut work, &mut trace),
        Err(13)
    );
    assert_eq!((work, trace), ([7; 12], [7; 4]));
    let (mut work, mut trace) = ([7u16; 12], [7u8; 5]);
    let outcome = compare_into(&reference, &device, true, &mut work, &mut trace);
    assert_eq!(outcome, Ok(Outcome::Refines { cleared: 6 }));
    assert_eq!((work, trace), ([0; 12], [7; 5]));
}

#[test]
fn program_texts() {
    let bytes = |sheets: [Sheet; 2]| [encode(1, &sheets[0]), encode(1, &sheets[1])].concat();
    let (reference, device) = stray_pair();
    let heads = "reference 1 nodes 2 events\ndevice 1 nodes 2 events\n";
    let stray = format!("{heads}violates after 0 cleared 0\ntrace\nstray 1\n");
    assert_eq!(output(&bytes([reference, device])), stray);
    let refines = format!("{heads}refines cleared 1\n");
    assert_eq!(output(&bytes([reference, reference])), refines);
    let unequal = "reference 1 nodes 2 events\ndevice 1 nodes 1 events\ncomparison refused 11\n";
    assert_eq!(output(&bytes([reference, stopped()])), unequal);
    for short in [&b""[..], &[0], &[0, 0, 0], &[0, 0, 0, 1], &[255; 9]] {
        assert_eq!(output(short), "reference refused 1\n");
    }
    assert_eq!(output(&[0, 0, 0, 3, 3, 1, 1]), "reference refused 2\n");
    let alone = "reference 1 nodes 2 events\ndevice refused 1\n";
    assert_eq!(output(&encode(1, &reference)), alone);
    let mut more = bytes([reference, reference]);
    more.push(0);
    assert_eq!(output(&more), alone);
}

#[test]
fn input_beyond_4096_bytes_is_absent() {
    let good = encode(1, &stray_pair().0);
    let fill = 4_096 - good.len() - 4;
    let mut bytes = good.clone();
    bytes.extend_from_slice(&(fill as u32).to_be_bytes());
    bytes.extend_from_slice(&[1, 13, 1]);
    bytes.resize(4_096, 0);
    let refused = |number| format!("reference 1 nodes 2 events\ndevice refused {number}\n");
    assert_eq!(output(&bytes), refused(3));
    bytes.extend_from_slice(&[0; 100]);
    assert_eq!(output(&bytes), refused(3));
    let longer = (fill as u32 + 1).to_be_bytes();
    bytes[good.len()..good.len() + 4].copy_from_slice(&longer);
    assert_eq!(output(&bytes), refused(1));
    let mut first = vec![0, 0, 0x0F, 0xFC, 1, 1, 1];
    first.resize(4_096, NO_NODE);
    assert_eq!(output(&first), "reference refused 5\n");
    first[3] = 0xFD;
    first.push(0);
    assert_eq!(output(&first), "reference refused 1\n");
}
