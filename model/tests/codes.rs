//! Catalogue codes (02, K1): both versions, 18 and 19 and their order, and what is printed.

mod common;

use model::comparison::{compare, compare_into, MAX_WORDS};
use model::examples::*;
use model::numbers::Suited;
use model::planted::suites::{suite_with, SuiteFault};
use model::probes::list;
use model::random::*;
use model::sheet::{check, encode, first_codes, has_first_codes, read, Sheet};
use model::tests::{open, step, verdict, verdicts, Answer, Report, Run};
use model::text;

/// The reference of the program's example as version 2 bytes with codes 257 and 258.
const REFERENCE_2: [u8; 23] = [
    0, 0, 0, 19, 2, 2, 2, 1, 1, 1, 2, 1, 1, 2, 0, 1, 0, 2, 0, 0, 1, 0, 3,
];

/// These bytes with some places changed.
fn changed(changes: &[(usize, u8)]) -> Vec<u8> {
    let mut bytes = REFERENCE_2.to_vec();
    for &(place, value) in changes {
        bytes[place] = value;
    }
    bytes
}

/// The first bytes of some, with a right length field.
fn cut(bytes: &[u8], length: usize) -> Vec<u8> {
    let mut bytes = bytes[..length].to_vec();
    bytes[3] = length as u8 - 4;
    bytes
}

#[test]
fn a_sheet_of_either_version_carries_its_codes() {
    let (reference, _) = program_pair();
    let first = read(&PROGRAM_INPUT[..19]).expect("version 1");
    assert_eq!(first.codes, [1, 2, 0, 0, 0, 0, 0, 0, 0, 0, 0, 0]);
    assert_eq!(first, reference);
    let second = read(&REFERENCE_2).expect("version 2");
    assert_eq!(second.codes, [257, 258, 0, 0, 0, 0, 0, 0, 0, 0, 0, 0]);
    assert_eq!(second, reference.with_codes(&[257, 258]));
    assert_eq!(encode(2, &second), REFERENCE_2);
    // Version 2 with the codes of version 1 is the same sheet.
    assert_eq!(read(&encode(2, &first)), Ok(first));
    for codes in [[0, 1], [65_535, 0], [2, 1], [512, 256]] {
        let sheet = reference.with_codes(&codes);
        assert_eq!(check(&sheet), 0);
        assert_eq!(read(&encode(2, &sheet)), Ok(sheet));
    }
    let full = Sheet::build(12, &[([0; 12], [1])]);
    assert_eq!(full.codes, [1, 2, 3, 4, 5, 6, 7, 8, 9, 10, 11, 12]);
    assert_eq!((check(&full), first_codes(12)), (0, full.codes.to_vec()));
}

#[test]
fn reading_2_and_the_codes() {
    for version in [0, 3, 4, 255] {
        assert_eq!(read(&changed(&[(4, version)])), Err(2), "{version}");
        assert_eq!(read(&changed(&[(4, version), (5, 13)])), Err(2));
    }
    // The bytes of version 1 under version 2: its first four bytes after N are codes.
    let mut bytes = PROGRAM_INPUT[..19].to_vec();
    bytes[4] = 2;
    assert_eq!(read(&bytes), Err(4));
    // 3 before the codes; codes cut off before 18; 18 before the nodes.
    assert_eq!(read(&changed(&[(5, 13)])), Err(3));
    assert_eq!(read(&changed(&[(6, 33), (10, 1)])), Err(3));
    assert_eq!(read(&changed(&[(5, 255)])), Err(3));
    for length in 7..=10 {
        assert_eq!(read(&cut(&REFERENCE_2, length)), Err(4), "{length}");
    }
    let twice = changed(&[(10, 1)]);
    assert_eq!(read(&twice), Err(18));
    assert_eq!(read(&cut(&twice, 10)), Err(4));
    assert_eq!(read(&cut(&twice, 11)), Err(18));
    assert_eq!(read(&cut(&REFERENCE_2, 11)), Err(4));
    for (place, value) in [(13, 0), (13, 17), (11, 2), (15, 2), (21, 9)] {
        let number = read(&changed(&[(place, value)])).expect_err("refused");
        assert!((5..=7).contains(&number), "{place}");
        assert_eq!(read(&changed(&[(10, 1), (place, value)])), Err(18));
    }
    for length in 12..22 {
        assert_eq!(read(&cut(&REFERENCE_2, length)), Err(4));
        assert_eq!(read(&cut(&twice, length)), Err(18));
    }
    // Two of three codes are equal, the third is cut off.
    assert_eq!(read(&[0, 0, 0, 8, 2, 3, 1, 0, 5, 0, 5, 0]), Err(4));
    assert_eq!(read(&[0, 0, 0, 9, 2, 3, 1, 0, 5, 0, 5, 0, 6]), Err(18));
}

#[test]
fn a_kept_sheet_is_checked_by_3_18_5_6_7_8() {
    let good = program_pair().0;
    let with = |change: fn(&mut Sheet)| {
        let mut sheet = good;
        change(&mut sheet);
        check(&sheet)
    };
    assert_eq!(with(|s| s.codes = [0; 12]), 18);
    assert_eq!(with(|s| s.codes[0] = 0), 0);
    assert_eq!(with(|s| s.codes[1] = 1), 18);
    assert_eq!(with(|s| s.codes[2] = 3), 7);
    assert_eq!(with(|s| s.codes[11] = 1), 7);
    assert_eq!(with(|s| (s.codes[1], s.codes[2]) = (1, 1)), 18);
    assert_eq!(with(|s| (s.codes[1], s.rows[0].c) = (1, 17)), 18);
    assert_eq!(with(|s| (s.codes[1], s.rows[0].succ[0]) = (1, 2)), 18);
    assert_eq!(with(|s| (s.codes[1], s.e) = (1, 13)), 3);
    assert_eq!(with(|s| (s.codes[1], s.n) = (1, 0)), 3);
    assert_eq!(with(|s| (s.codes[2], s.rows[0].c) = (3, 17)), 5);
    assert_eq!(with(|s| (s.codes[2], s.rows[0].succ[0]) = (3, 2)), 6);
    // An unused code and a node that is not reached: 7 before 8.
    let apart = |s: &mut Sheet| (s.rows[0].succ[0], s.rows[0].succ[1]) = (0, 0);
    let mut sheet = good;
    apart(&mut sheet);
    assert_eq!(check(&sheet), 8);
    sheet.codes[7] = 1;
    assert_eq!(check(&sheet), 7);
    let mut full = Sheet::build(12, &[([0; 12], [1])]);
    full.codes[11] = 1;
    assert_eq!(check(&full), 18);
}

#[test]
fn later_calls_check_18() {
    let (good, device) = program_pair();
    let twice = good.with_codes(&[7, 7]);
    let mut seven = device;
    seven.codes[2] = 1;
    let ended = Run {
        ended: true,
        ..Run::ZERO
    };
    assert_eq!(list(&twice, 99, 0), Err(18));
    assert_eq!(open(&twice, 2_000, 0, true).0, Answer::Denied(18));
    let denied = (Answer::Denied(18), ended);
    assert_eq!(step(&twice, &ended, Report::Blocked), denied);
    for (reference, other, number) in [
        (&twice, &seven, 18),
        (&seven, &twice, 7),
        (&good, &twice, 18),
        (&twice, &stopped(), 18),
    ] {
        assert_eq!(judged(reference, other), [Err(number); 3]);
    }
}

/// What a verdict with too high a number, the verdicts with no list and a comparison with no
/// lists are refused with.
fn judged(reference: &Sheet, device: &Sheet) -> [Result<(), u8>; 3] {
    let one = verdict(reference, device, 2_000, false).map(|_| ());
    let all = suite_with(SuiteFault::None, reference, device, false, &mut []);
    let Suited { refusal, count } = all;
    assert_eq!(count, 0);
    let compared = compare(reference, device, true, 0, 0).map(|_| ());
    [one, Err(refusal), compared]
}

#[test]
fn nineteen_comes_directly_after_11() {
    let (good, device) = program_pair();
    assert_eq!(judged(&good, &device), [Err(14), Err(10), Err(12)]);
    for codes in [[1, 3], [0, 2], [2, 1], [1, 258], [257, 258]] {
        let other = device.with_codes(&codes);
        assert_eq!(judged(&good, &other), [Err(19); 3]);
        for trace_only in [false, true] {
            assert_eq!(verdict(&good, &other, 5, trace_only), Err(19));
            assert_eq!(verdicts(&good, &other, 6, trace_only), Err(19));
            let compared = compare(&good, &other, trace_only, MAX_WORDS, 1_023);
            assert_eq!(compared, Err(19));
            let (mut work, mut trace) = ([7; 12], [7; 5]);
            let answer = compare_into(&good, &other, trace_only, &mut work, &mut trace);
            assert_eq!((answer, work, trace), (Err(19), [7; 12], [7; 5]));
        }
        // With the same codes on both sides nothing is refused.
        assert!(compare(&good.with_codes(&codes), &other, false, 12, 5).is_ok());
    }
    let unequal = stopped().with_codes(&[9]);
    assert_eq!(judged(&good, &unequal), [Err(11); 3]);
}

/// Codes play no part beside 18, 7 and 19.
#[test]
fn codes_change_no_answer() {
    let mut rng = Rng::new(91);
    for _ in 0..300 {
        let (reference, device) = pair(&mut rng);
        let plain = |sheet: &Sheet| sheet.with_codes(&first_codes(sheet.e));
        let (one, other) = (plain(&reference), plain(&device));
        for trace_only in [false, true] {
            assert_eq!(
                compare(&reference, &device, trace_only, MAX_WORDS, 1_023),
                compare(&one, &other, trace_only, MAX_WORDS, 1_023)
            );
            assert_eq!(
                verdicts(&reference, &device, 40, trace_only),
                verdicts(&one, &other, 40, trace_only)
            );
        }
        assert_eq!(list(&reference, 0, 924), list(&one, 0, 924));
        let h = rng.word();
        assert_eq!(open(&reference, 3, h, false), open(&one, 3, h, false));
        let run = random_record(&mut rng, &reference);
        let report = random_report(&mut rng, &reference);
        assert_eq!(step(&reference, &run, report), step(&one, &run, report));
    }
}

/// Bytes are read as a sheet exactly if they are its version 2 bytes, or its version 1 bytes and
/// its codes are those of version 1.
#[test]
fn the_two_spellings() {
    let mut rng = Rng::new(92);
    let (mut first, mut other) = (0, 0);
    for _ in 0..2_000 {
        let sheet = random_sheet(&mut rng);
        assert_eq!(read(&encode(2, &sheet)), Ok(sheet));
        let same = has_first_codes(&sheet);
        assert_eq!(read(&encode(1, &sheet)) == Ok(sheet), same);
        (first, other) = (first + u32::from(same), other + u32::from(!same));
        let bytes = spelled(&mut rng, &sheet);
        let again = read(&bytes).expect("accepted");
        assert_eq!(encode(bytes[4], &again), bytes);
    }
    assert!(first > 500 && other > 500, "{first} {other}");
}

/// Other codes are accepted, do not agree, and differ in each place alone, the same ones in
/// another order among them.
#[test]
fn other_codes_do_not_agree() {
    let mut rng = Rng::new(93);
    let (mut alone, mut orders, mut first) = ([0; 12], 0, 0);
    for _ in 0..4_000 {
        let sheet = random_sheet(&mut rng);
        let other = recoded(&mut rng, &sheet);
        assert_eq!((check(&sheet), check(&other)), (0, 0));
        let e = usize::from(sheet.e);
        let places: Vec<usize> = (0..e)
            .filter(|&i| sheet.codes[i] != other.codes[i])
            .collect();
        assert_eq!(verdict(&sheet, &other, 0, false), Err(19));
        match places[..] {
            [] => panic!("the same codes"),
            [place] => alone[place] += 1,
            _ => {}
        }
        let sorted = |sheet: &Sheet| {
            let mut codes = sheet.used_codes().to_vec();
            codes.sort_unstable();
            codes
        };
        orders += u32::from(sorted(&sheet) == sorted(&other));
        first += u32::from(has_first_codes(&sheet) || has_first_codes(&other));
    }
    assert!(alone.iter().all(|&count| count > 20), "{alone:?}");
    assert!(orders > 200 && first > 1_000, "{orders} {first}");
}

#[test]
fn the_texts() {
    let (reference, device) = program_pair();
    let other = device.with_codes(&[257, 258]);
    let heads = "reference 2 nodes 2 events\ndevice 3 nodes 2 events\n";
    let input = [encode(1, &reference), encode(2, &other)].concat();
    let refused = format!("{heads}comparison refused 19\n");
    assert_eq!(text::compare::output(&input), refused);
    let refused = format!("{heads}suite refused 19\n");
    assert_eq!(text::suite::output(&input), refused);
    // Version 1 against version 2 with the codes of version 1.
    let input = [encode(1, &reference), encode(2, &device)].concat();
    assert_eq!(text::compare::output(&input), PROGRAM_OUTPUT);
    let input = [&REFERENCE_2[..], &encode(2, &other)].concat();
    assert_eq!(text::compare::output(&input), PROGRAM_OUTPUT);
    let nodes = "node 0
event 0 to 1
event 1 to 1
accepts 1 ( 0 )
accepts 2 ( 1 )
node 1
event 0 to 0
event 1 to 0
accepts 3 ( 0 1 )
";
    let head = "sheet 2 nodes 2 events\n";
    let shown = format!("{head}code 0 257\ncode 1 258\n{nodes}");
    assert_eq!(text::show::output(&REFERENCE_2), shown);
    for version in [1, 2] {
        let bytes = encode(version, &reference);
        assert_eq!(text::show::output(&bytes), format!("{head}{nodes}"));
    }
    let last = encode(2, &reference.with_codes(&[1, 0]));
    let shown = format!("{head}code 0 1\ncode 1 0\n{nodes}");
    assert_eq!(text::show::output(&last), shown);
    let probes = text::probe_list::output(&PROGRAM_INPUT[..19]);
    assert_eq!(text::probe_list::output(&REFERENCE_2), probes);
}

#[test]
fn the_meanings() {
    let refused = |bytes: &[u8]| text::show::output(bytes);
    assert_eq!(
        refused(&changed(&[(4, 3)])),
        "sheet refused 2 version is neither 1 nor 2\n"
    );
    assert_eq!(
        refused(&cut(&REFERENCE_2, 9)),
        "sheet refused 4 the bytes end too early or some remain\n"
    );
    let twice = changed(&[(10, 1)]);
    let words = "sheet refused 18 a code is given twice\n";
    assert_eq!(refused(&twice), words);
    assert_eq!(text::probe_list::output(&twice), words);
    assert_eq!(text::compare::output(&twice), "reference refused 18\n");
}
