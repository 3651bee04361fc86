//! How many scripts go where: the cases of the plan, the ways to count held together, and the
//! counts held against the definitions written out literally.

mod common;

use std::fs::read as bytes_of;
use std::path::Path;

use common::{compared, lists};
use model::comparison::Outcome;
use model::examples::{program_pair, stopped, stray_pair, PROGRAM_INPUT};
use model::numbers::{count_numbers, Scripts};
use model::random::{full_pair, kept, pair, recoded, small_pair, Rng, AIMS_KEPT};
use model::scripts::{
    are_few, by_pairs, count, fate, one_by_one, scripts, Counts, Fate, MAX_SCRIPT,
};
use model::sheet::{check, encode, is_trace, read, Sheet, NO_NODE};
use model::text::script_counts::{output, Call};

/// The three counts, in the order of the papers.
fn three(reference: &Sheet, device: &Sheet, length: u16) -> Result<[u64; 3], u8> {
    let counts = count(reference, device, length)?;
    Ok([counts.walked, counts.device, counts.reference])
}

/// A sheet of the sample `tray`.
fn tray(name: &str) -> Sheet {
    let samples = Path::new(env!("CARGO_MANIFEST_DIR")).join("../samples/tray");
    let bytes = bytes_of(samples.join(name)).expect("a sample");
    read(&bytes).expect("a sheet")
}

/// One node of 12 events, all looping.
fn looping() -> Sheet {
    Sheet::build(12, &[([0; 12], [0])])
}

/// One node of 12 events without successors.
fn still() -> Sheet {
    Sheet::build(12, &[([NO_NODE; 12], [0])])
}

#[test]
fn the_cases_of_the_plan() {
    let (reference, device) = program_pair();
    for (length, expected) in [
        (0, [1, 0, 0]),
        (2, [4, 0, 0]),
        (3, [4, 4, 0]),
        (6, [16, 48, 0]),
        (16, [2_048, 63_488, 0]),
    ] {
        assert_eq!(three(&reference, &device, length), Ok(expected));
        let [walked, stops, none] = expected;
        let exchanged = Ok([walked, none, stops]);
        assert_eq!(three(&device, &reference, length), exchanged);
    }
    let (reference, device) = stray_pair();
    assert_eq!(three(&reference, &device, 1), Ok([0, 1, 1]));
    assert_eq!(three(&reference, &device, 16), Ok([0, 32_768, 32_768]));
    let (reference, device) = (tray("reference.sheet"), tray("device.sheet"));
    assert_eq!(three(&reference, &device, 9), Ok([491, 134_217_236, 1]));
    let long = Ok([58_202, 281_474_973_811_925, 2_840_529]);
    assert_eq!(three(&reference, &device, 16), long);
}

#[test]
fn the_largest_counts() {
    let all = 184_884_258_895_036_416;
    assert_eq!(scripts(12, 16), all);
    assert_eq!(three(&looping(), &looping(), 16), Ok([all, 0, 0]));
    assert_eq!(three(&looping(), &still(), 16), Ok([0, all, 0]));
    assert_eq!(three(&still(), &still(), 16), Ok([0, all, 0]));
    assert_eq!(three(&still(), &looping(), 16), Ok([0, 0, all]));
    for length in 0..=MAX_SCRIPT {
        let all = scripts(12, length);
        assert_eq!(three(&looping(), &looping(), length), Ok([all, 0, 0]));
    }
}

#[test]
fn refusals_in_their_order() {
    let (reference, device) = program_pair();
    assert!(count(&reference, &device, 16).is_ok());
    for length in [17, 18, 256, 65_535] {
        assert_eq!(count(&reference, &device, length), Err(20));
        let refused = Scripts {
            refusal: 20,
            walked: 0,
            device: 0,
            reference: 0,
        };
        assert_eq!(count_numbers(&reference, &device, length), refused);
    }
    let mut rng = Rng::new(101);
    let other = recoded(&mut rng, &device);
    for length in [0, 16, 17, 65_535] {
        assert_eq!(count(&reference, &other, length), Err(19));
        assert_eq!(count(&reference, &stopped(), length), Err(11));
        for aim in AIMS_KEPT {
            let bad = kept(&mut rng, aim);
            assert_eq!(count(&bad, &device, length), Err(aim));
            assert_eq!(count(&reference, &bad, length), Err(aim));
            assert_eq!(count(&bad, &Sheet::ZERO, length), Err(aim));
        }
    }
}

/// The fate of a list in terms of traces alone: of the shortest front that is not a trace of
/// both, whether it is one of the device.
fn literal_fate(reference: &Sheet, device: &Sheet, list: &[u8]) -> Fate {
    let both = |front: &[u8]| is_trace(reference, front) && is_trace(device, front);
    match (0..=list.len()).find(|&l| !both(&list[..l])) {
        None => Fate::Walked,
        Some(l) if is_trace(device, &list[..l]) => Fate::ReferenceStops,
        Some(_) => Fate::DeviceStops,
    }
}

#[test]
fn counts_are_those_of_the_lists() {
    let mut rng = Rng::new(102);
    for _ in 0..300 {
        let (reference, device) = small_pair(&mut rng);
        for length in 0..=5 {
            let all = lists(reference.e, length);
            let with = |wanted: Fate| {
                let same = |list: &&Vec<u8>| literal_fate(&reference, &device, list) == wanted;
                all.iter().filter(same).count() as u64
            };
            let expected = Counts {
                walked: with(Fate::Walked),
                device: with(Fate::DeviceStops),
                reference: with(Fate::ReferenceStops),
            };
            let length = length as u16;
            assert_eq!(count(&reference, &device, length), Ok(expected));
            assert_eq!(one_by_one(&reference, &device, length), expected);
            for list in &all {
                let literal = literal_fate(&reference, &device, list);
                assert_eq!(fate(&reference, &device, list), literal);
            }
        }
    }
}

#[test]
fn both_ways_of_counting_agree() {
    let mut rng = Rng::new(103);
    let mut compared = 0;
    for round in 0..600 {
        let (reference, device) = match round % 3 {
            0 => small_pair(&mut rng),
            1 => full_pair(&mut rng),
            _ => pair(&mut rng),
        };
        for length in 0..=MAX_SCRIPT {
            if are_few(reference.e, length) {
                let each = one_by_one(&reference, &device, length);
                assert_eq!(each, by_pairs(&reference, &device, length));
                compared += 1;
            }
        }
    }
    assert!(compared >= 2_000, "{compared}");
}

#[test]
fn the_three_sum_to_all_scripts() {
    let mut rng = Rng::new(104);
    for round in 0..600 {
        let (reference, device) = match round % 2 {
            0 => full_pair(&mut rng),
            _ => pair(&mut rng),
        };
        for length in 0..=MAX_SCRIPT {
            let [walked, stops, strays] = three(&reference, &device, length).expect("accepted");
            assert_eq!(walked + stops + strays, scripts(reference.e, length));
        }
    }
}

/// The first length with a script that the reference stops is one more than the d of the
/// trace-only comparison, and a longer one has such a script too.
#[test]
fn the_first_stray_is_that_of_the_trace_only_comparison() {
    let mut rng = Rng::new(105);
    let (mut strays, mut none) = (0, 0);
    for _ in 0..600 {
        let (reference, device) = pair(&mut rng);
        let first = match compared(&reference, &device, true) {
            Outcome::Violates { d, .. } => d + 1,
            Outcome::Refines { .. } => u16::MAX,
        };
        for length in 0..=MAX_SCRIPT {
            let stops = three(&reference, &device, length).expect("accepted")[2];
            assert_eq!(stops > 0, length >= first);
        }
        strays += usize::from(first <= MAX_SCRIPT);
        none += usize::from(first == u16::MAX);
    }
    assert!(strays >= 100 && none >= 100, "{strays} {none}");
}

#[test]
fn full_pairs_are_accepted_and_have_large_counts() {
    let mut rng = Rng::new(106);
    let mut large = [0; 3];
    for _ in 0..400 {
        let (reference, device) = full_pair(&mut rng);
        assert_eq!((check(&reference), check(&device)), (0, 0));
        assert_eq!((reference.e, reference.codes), (device.e, device.codes));
        let counts = three(&reference, &device, 16).expect("accepted");
        for (place, count) in large.iter_mut().zip(counts) {
            *place += usize::from(count > u32::MAX.into());
        }
    }
    assert!(large.iter().all(|&count| count >= 80), "{large:?}");
}

/// The text for two sheets and some words.
fn text(sheets: [&Sheet; 2], words: &[&str]) -> String {
    let input = sheets.map(|sheet| encode(1, sheet)).concat();
    let words = words.iter().map(|word| word.to_string()).collect();
    output(&Call { input, words })
}

#[test]
fn program_texts() {
    let (reference, device) = (tray("reference.sheet"), tray("device.sheet"));
    let heads = |sheets: [&Sheet; 2]| {
        let names = ["reference", "device"].into_iter().zip(sheets);
        let line =
            |(who, sheet): (&str, &Sheet)| format!("{who} {} nodes {} events\n", sheet.n, sheet.e);
        names.map(line).collect::<String>()
    };
    let told = "scripts of 9 events 134217728
walked 491
device stops 134217236
reference stops 1
ends early 134217237
";
    let both = [&reference, &device];
    assert_eq!(text(both, &["9"]), heads(both) + told);
    assert_eq!(text(both, &["00009"]), heads(both) + told);
    let none = "scripts of 0 events 1\nwalked 1\ndevice stops 0\nreference stops 0\nends early 0\n";
    assert_eq!(text(both, &["0"]), heads(both) + none);
    let all = [&looping(), &looping()];
    let largest = "scripts of 16 events 184884258895036416
walked 184884258895036416
device stops 0
reference stops 0
ends early 0
";
    assert_eq!(text(all, &["00016"]), heads(all) + largest);
}

#[test]
fn program_refusals() {
    let call = |input: &[u8], words: &[&str]| {
        let words = words.iter().map(|word| word.to_string()).collect();
        output(&Call {
            input: input.to_vec(),
            words,
        })
    };
    let heads = "reference 2 nodes 2 events\ndevice 3 nodes 2 events\n";
    let wrong: [&[&str]; 16] = [
        &[],
        &["1", "1"],
        &["1", ""],
        &["17"],
        &["65535"],
        &["65536"],
        &["65537"],
        &["99999"],
        &["000016"],
        &[""],
        &["x"],
        &["-1"],
        &["+1"],
        &[" 1"],
        &["1 "],
        &["1x"],
    ];
    for words in wrong {
        let text = call(&PROGRAM_INPUT, words);
        assert_eq!(text, format!("{heads}scripts refused 20\n"), "{words:?}");
        assert_eq!(call(&PROGRAM_INPUT[..3], words), "reference refused 1\n");
        let cut = call(&PROGRAM_INPUT[..40], words);
        assert_eq!(cut, "reference 2 nodes 2 events\ndevice refused 1\n");
    }
    let (reference, device) = program_pair();
    for words in [&["1"], &["17"], &["x"]] {
        let eleven = text([&reference, &stopped()], words);
        assert!(eleven.ends_with("events\nscripts refused 11\n"), "{eleven}");
        let other = device.with_codes(&[2, 1]);
        let input = [encode(1, &reference), encode(2, &other)].concat();
        let nineteen = call(&input, words);
        assert_eq!(nineteen, format!("{heads}scripts refused 19\n"));
    }
}
