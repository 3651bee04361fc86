//! The bound is reached: the two sheets as bytes, that they are accepted, their first failing test
//! by verdicts, by comparisons and by runs, the order of refusals, what a call leaves alone, and
//! what the program writes.

mod common;

use common::{compared, fails, fails_with};
use model::bound::{device, fill, first_failing, in_range, list, reference, sheets};
use model::comparison::{Named, Outcome};
use model::examples::{stray_pair, theorem_5};
use model::numbers::{bound_numbers, Bounded};
use model::random::{bound_count, bound_places, bound_words, Rng};
use model::sheet::{check, encode, read, Sheet, MAX_BYTES};
use model::tests::{verdicts, Verdict};
use model::text::bound_pair::{output, Written};
use model::text::{compare, suite};

/// Every p and q.
fn pairs() -> impl Iterator<Item = (u8, u8)> {
    (1..=32).flat_map(|p| (1..=32).map(move |q| (p, q)))
}

/// The two sheets as they are read from their bytes.
fn read_sheets(p: u8, q: u8) -> (Sheet, Sheet) {
    let (mine, theirs) = sheets(p, q);
    let good = |bytes: &[u8]| read(bytes).expect("accepted");
    (good(&mine), good(&theirs))
}

/// p·q - 1.
fn last_test(p: u8, q: u8) -> u16 {
    u16::from(p) * u16::from(q) - 1
}

#[test]
fn some_sheets_as_bytes() {
    let one = [0, 0, 0, 8, 1, 2, 1, 0, 255, 1, 0, 1];
    let other = [0, 0, 0, 8, 1, 2, 1, 255, 0, 1, 0, 2];
    assert_eq!(sheets(1, 1), (one.to_vec(), other.to_vec()));
    let two = [
        0, 0, 0, 15, 1, 2, 2, // 15 bytes follow, version 1, two events, two nodes
        0, 1, 2, 0, 1, 0, 2, // node 0 stays on 0, climbs on 1, sets 1 and 2
        1, 255, 1, 0, 1, // node 1 stays on 0, set 1
    ];
    let three = [
        0, 0, 0, 18, 1, 2, 3, // 18 bytes follow, version 1, two events, three nodes
        1, 255, 1, 0, 1, // node 0 climbs on 0, set 1
        2, 255, 1, 0, 1, // node 1 climbs on 0, set 1
        255, 0, 1, 0, 2, // node 2 goes back on 1, set 2
    ];
    assert_eq!(sheets(2, 3), (two.to_vec(), three.to_vec()));
    assert_eq!(sheets(2, 1), (two.to_vec(), other.to_vec()));
    assert_eq!(sheets(1, 3), (one.to_vec(), three.to_vec()));
}

/// 02's sentence in bytes: the head, and each node at its place.
fn by_places(p: u8, q: u8) -> (Vec<u8>, Vec<u8>) {
    let mut mine = vec![0; 7 * usize::from(p) + 5];
    let mut theirs = vec![0; 5 * usize::from(q) + 7];
    for (bytes, n) in [(&mut mine, p), (&mut theirs, q)] {
        bytes[3] = (bytes.len() - 4) as u8;
        bytes[4..7].copy_from_slice(&[1, 2, n]);
    }
    for v in 0..p - 1 {
        let at = 7 + 7 * usize::from(v);
        mine[at..at + 7].copy_from_slice(&[v, v + 1, 2, 0, 1, 0, 2]);
    }
    let at = 7 * usize::from(p);
    mine[at..].copy_from_slice(&[p - 1, 255, 1, 0, 1]);
    for w in 0..q - 1 {
        let at = 7 + 5 * usize::from(w);
        theirs[at..at + 5].copy_from_slice(&[w + 1, 255, 1, 0, 1]);
    }
    let at = 2 + 5 * usize::from(q);
    theirs[at..].copy_from_slice(&[255, 0, 1, 0, 2]);
    (mine, theirs)
}

/// Every sheet has the bytes of 02's sentence; the lengths are 7 p + 5 and 5 q + 7.
#[test]
fn every_sheet_as_bytes() {
    for (p, q) in pairs() {
        let (mine, theirs) = sheets(p, q);
        assert_eq!((mine.clone(), theirs.clone()), by_places(p, q));
        let lengths = (mine.len(), theirs.len());
        let expected = (7 * usize::from(p) + 5, 5 * usize::from(q) + 7);
        assert_eq!(lengths, expected, "{p} {q}");
        assert!(lengths.0.max(lengths.1) <= 229 && 229 < MAX_BYTES);
        // A sheet depends on its own number of nodes alone.
        assert_eq!((sheets(p, 1).0, sheets(1, q).1), (mine, theirs));
    }
}

/// Both sheets are accepted, as bytes and as kept; they have p and q nodes, two events and the
/// codes of version 1.
#[test]
fn every_sheet_is_accepted() {
    for (p, q) in pairs() {
        let (mine, theirs) = read_sheets(p, q);
        assert_eq!((mine, theirs), (reference(p), device(q)));
        assert_eq!((mine.n, theirs.n), (p, q));
        for (sheet, bytes) in [(mine, sheets(p, q).0), (theirs, sheets(p, q).1)] {
            assert_eq!((check(&sheet), sheet.e), (0, 2));
            assert_eq!(sheet.used_codes(), [1, 2]);
            assert_eq!((bytes[4], encode(1, &sheet)), (1, bytes));
        }
    }
}

/// 01's case: one node looping on event 0, against one looping on event 1.
#[test]
fn one_node_each_is_the_stray_pair() {
    assert_eq!(read_sheets(1, 1), stray_pair());
    let expected = Outcome::Violates {
        d: 0,
        cleared: 0,
        trace: vec![],
        named: Named::Stray(1),
    };
    for trace_only in [false, true] {
        let outcome = compared(&reference(1), &device(1), trace_only);
        assert_eq!(outcome, expected);
    }
}

/// Of each pair every test below p·q - 1 passes, and test p·q - 1 fails.
#[test]
fn the_first_failing_test_of_every_pair() {
    for (p, q) in pairs() {
        let (mine, theirs) = read_sheets(p, q);
        let last = last_test(p, q);
        assert_eq!(first_failing(p, q), last);
        for trace_only in [false, true] {
            let verdicts = verdicts(&mine, &theirs, last + 1, trace_only).expect("accepted");
            let first = verdicts.iter().position(|&one| one == Verdict::Fails);
            assert_eq!(first, Some(last.into()), "{p} {q} {trace_only}");
        }
    }
}

/// The same by single verdicts: of all tests of some pairs, of the last two of the others.
#[test]
fn single_verdicts_of_every_pair() {
    for (p, q) in pairs() {
        let (mine, theirs) = read_sheets(p, q);
        let last = last_test(p, q);
        let from = match (p, q) {
            (1..=6, 1..=6) | (32, 1..=3) | (1..=3, 32) => 0,
            _ => last.saturating_sub(1),
        };
        for k in from..=last {
            for trace_only in [false, true] {
                let failed = fails(&mine, &theirs, k, trace_only);
                assert_eq!(failed, k == last, "{p} {q} {k} {trace_only}");
            }
        }
    }
}

/// The same by runs, call by call, with every choice number that makes a difference.
#[test]
fn runs_of_small_pairs() {
    for (p, q) in pairs().filter(|&(p, q)| p <= 4 && q <= 4) {
        let (mine, theirs) = read_sheets(p, q);
        let last = last_test(p, q);
        for k in 0..=last {
            for trace_only in [false, true] {
                let failed = (0..2).any(|h| fails_with(&mine, &theirs, k, h, trace_only));
                assert_eq!(failed, k == last, "{p} {q} {k} {trace_only}");
            }
        }
    }
}

/// The nearest violation of each pair comes after p·q - 1 events and is the stray 1; every other
/// pair of nodes is cleared before it. The trace goes round the device p times, but for its end.
#[test]
fn the_nearest_violation_of_every_pair() {
    for (p, q) in pairs() {
        let (mine, theirs) = read_sheets(p, q);
        let last = last_test(p, q);
        let round = [vec![0; usize::from(q) - 1], vec![1]].concat();
        let mut trace = round.repeat(p.into());
        trace.pop();
        let expected = Outcome::Violates {
            d: last,
            cleared: last,
            trace,
            named: Named::Stray(1),
        };
        for trace_only in [false, true] {
            let outcome = compared(&mine, &theirs, trace_only);
            assert_eq!(outcome, expected, "{p} {q} {trace_only}");
        }
    }
}

/// 001's pair is another one: it reaches the bound by traces, and by refusals it does not.
#[test]
fn theorem_5_has_another_pair() {
    for (p, q) in [(2, 2), (3, 4), (5, 2)] {
        let (mine, theirs) = theorem_5(p, q);
        assert_ne!((mine, theirs), (reference(p), device(q)));
        let d = |trace_only| match compared(&mine, &theirs, trace_only) {
            Outcome::Violates { d, .. } => d,
            Outcome::Refines { .. } => u16::MAX,
        };
        assert_eq!(d(true), last_test(p, q));
        assert!(d(false) < last_test(p, q));
    }
}

#[test]
fn numbers_of_nodes_and_lists() {
    for p in 0..=255 {
        for q in 0..=255 {
            let range = |nodes: u8| nodes != 0 && nodes < 33;
            let good = range(p) && range(q);
            let answer = list(p, q, (usize::MAX, usize::MAX));
            assert_eq!(answer.is_ok(), good, "{p} {q}");
            for lent in [(usize::MAX, usize::MAX), (0, 0), (2_000, 0), (0, 2_000)] {
                let refusal = list(p, q, lent).err();
                assert_eq!(refusal == Some(30), !good, "{p} {q} {lent:?}");
            }
        }
        assert_eq!(in_range(p), (1..=32).contains(&p));
    }
    for (p, q) in pairs() {
        let (first, second) = (7 * usize::from(p) + 5, 5 * usize::from(q) + 7);
        for lent in [
            (first, second),
            (first + 1, second),
            (first, second + 1),
            (65_536, 1 << 20),
        ] {
            assert_eq!(list(p, q, lent), Ok(sheets(p, q)), "{p} {q} {lent:?}");
        }
        for lent in [
            (first - 1, second),
            (first, second - 1),
            (first - 1, second - 1),
            (0, usize::MAX),
            (usize::MAX, 0),
            (0, 0),
            (second - 1, 5),
        ] {
            assert_eq!(list(p, q, lent), Err(31), "{p} {q} {lent:?}");
        }
    }
}

#[test]
fn what_a_call_leaves_alone() {
    let call = |p: u8, q: u8, places: (usize, usize)| {
        let mut mine: Vec<u8> = (100..).take(places.0).collect();
        let mut theirs: Vec<u8> = (200..).take(places.1).collect();
        let answer = bound_numbers(p, q, &mut mine, &mut theirs);
        let lengths = (answer.reference, answer.device);
        (answer.refusal, lengths, mine, theirs)
    };
    let one = [0, 0, 0, 8, 1, 2, 1, 0, 255, 1, 0, 1];
    let other = [0, 0, 0, 8, 1, 2, 1, 255, 0, 1, 0, 2];
    let exact = (0, (12, 12), one.to_vec(), other.to_vec());
    assert_eq!(call(1, 1, (12, 12)), exact);
    let rest = [&one[..], &[112, 113]].concat();
    let longer = (0, (12, 12), rest, [&other[..], &[212]].concat());
    assert_eq!(call(1, 1, (14, 13)), longer);
    let left = |places: (usize, usize)| {
        let mine: Vec<u8> = (100..).take(places.0).collect();
        let theirs: Vec<u8> = (200..).take(places.1).collect();
        (mine, theirs)
    };
    for places in [(12, 11), (11, 12), (11, 11), (0, 40), (40, 0), (0, 0)] {
        let (mine, theirs) = left(places);
        assert_eq!(call(1, 1, places), (31, (0, 0), mine, theirs));
        for (p, q) in [(0, 1), (1, 0), (33, 1), (1, 33), (0, 0), (255, 255)] {
            let (mine, theirs) = left(places);
            assert_eq!(call(p, q, places), (30, (0, 0), mine, theirs));
        }
    }
    for (p, q) in [(0, 1), (1, 0), (33, 32), (32, 33), (0, 255), (128, 128)] {
        let (mine, theirs) = left((150, 50));
        assert_eq!(call(p, q, (150, 50)), (30, (0, 0), mine, theirs));
    }
}

/// Random calls: the answer and both lists by the law of each place.
#[test]
fn random_calls_keep_their_laws() {
    let mut rng = Rng::new(161);
    let mut counts = [0; 3];
    for _ in 0..6_000 {
        let (p, q) = (bound_count(&mut rng), bound_count(&mut rng));
        let places = bound_places(&mut rng, p, q);
        let mut mine: Vec<u8> = (0..places.0).map(|_| rng.byte()).collect();
        let mut theirs: Vec<u8> = (0..places.1).map(|_| rng.byte()).collect();
        let before = (mine.clone(), theirs.clone());
        let answer = fill(p, q, &mut mine, &mut theirs);
        let (first, second) = (7 * usize::from(p) + 5, 5 * usize::from(q) + 7);
        let expected = match (p, q) {
            (1..=32, 1..=32) if places.0 >= first && places.1 >= second => Ok((first, second)),
            (1..=32, 1..=32) => Err(31),
            _ => Err(30),
        };
        assert_eq!(answer, expected, "{p} {q} {places:?}");
        counts[usize::from(answer.err().map_or(0, |number| number - 29))] += 1;
        if answer.is_err() {
            assert_eq!((mine, theirs), before);
            continue;
        }
        let (one, other) = by_places(p, q);
        assert!(mine == [&one[..], &before.0[first..]].concat());
        assert!(theirs == [&other[..], &before.1[second..]].concat());
    }
    assert!(counts.iter().all(|&count| count >= 1_000), "{counts:?}");
}

#[test]
fn an_answer_in_numbers() {
    let (mut mine, mut theirs) = ([7; 229], [7; 167]);
    let answer = bound_numbers(32, 32, &mut mine, &mut theirs);
    let expected = Bounded {
        refusal: 0,
        reference: 229,
        device: 167,
    };
    assert_eq!(answer, expected);
    assert_eq!((mine.to_vec(), theirs.to_vec()), sheets(32, 32));
}

/// The other programs on the two sheets: `suite` fails the last test alone, and `compare` names it.
#[test]
fn texts_of_the_pair() {
    for (p, q) in [(1, 1), (3, 4), (4, 3), (7, 5)] {
        let (mine, theirs) = sheets(p, q);
        let input = [mine, theirs].concat();
        let (heads, last) = (
            format!("reference {p} nodes 2 events\ndevice {q} nodes 2 events\n"),
            last_test(p, q),
        );
        let text = compare::output(&input);
        let begin = format!("{heads}violates after {last} cleared {last}\ntrace");
        assert!(text.starts_with(&begin) && text.ends_with("\nstray 1\n"));
        let passed: String = (0..last).map(|k| format!("test {k} passes\n")).collect();
        let text = suite::output(&input);
        let begin = format!("{heads}{passed}test {last} fails\n");
        assert!(text.starts_with(&begin), "{text}");
    }
}

/// What is written for three words.
fn told(p: &str, q: &str, word: &str) -> Written {
    output(&[p.to_string(), q.to_string(), word.to_string()])
}

#[test]
fn program_lines() {
    let first = "reference 3 nodes 26 bytes\ndevice 4 nodes 27 bytes\nfirst failing test 11\n";
    for p in ["3", "03", "003"] {
        for q in ["4", "04", "004"] {
            assert_eq!(told(p, q, "lines"), Written::printed(first));
        }
    }
    let other = "reference 4 nodes 33 bytes\ndevice 3 nodes 22 bytes\nfirst failing test 11\n";
    assert_eq!(told("4", "3", "lines"), Written::printed(other));
    let least = "reference 1 nodes 12 bytes\ndevice 1 nodes 12 bytes\nfirst failing test 0\n";
    assert_eq!(told("1", "001", "lines"), Written::printed(least));
    let most = "reference 32 nodes 229 bytes\ndevice 32 nodes 167 bytes\nfirst failing test 1023\n";
    assert_eq!(told("32", "032", "lines"), Written::printed(most));
    let seven = "reference 7 nodes 54 bytes\ndevice 1 nodes 12 bytes\nfirst failing test 6\n";
    assert_eq!(told("007", "1", "lines"), Written::printed(seven));
}

/// The program's answer for every pair.
#[test]
fn program_writes_every_pair() {
    for (p, q) in pairs() {
        let (one, other) = (p.to_string(), q.to_string());
        let (mine, theirs) = by_places(p, q);
        let lines = format!(
            "reference {p} nodes {} bytes\ndevice {q} nodes {} bytes\nfirst failing test {}\n",
            7 * u16::from(p) + 5,
            5 * u16::from(q) + 7,
            last_test(p, q)
        );
        assert_eq!(told(&one, &other, "lines"), Written::printed(lines));
        assert_eq!(told(&one, &other, "reference"), Written::printed(mine));
        assert_eq!(told(&one, &other, "device"), Written::printed(theirs));
    }
}

/// Words that are no number of nodes.
const NO_COUNTS: [&str; 38] = [
    "0", "00", "000", "33", "033", "34", "99", "100", "128", "255", "256", "257", "259", "288",
    "289", "512", "999", "0000", "0001", "0003", "0007", "1000", "1025", "9999", "00000003", "",
    " ", "x", "-1", "+3", " 3", "3 ", "\t3", "3\n", "3x", "0x3", "/3", "1:",
];

#[test]
fn program_refuses_numbers() {
    let refused = "bound refused 30\n";
    let long = format!("{:065}", 3);
    let longest = [65_536u64, 4_294_967_296].map(|past| (past + 3).to_string());
    let wrong = [&long[..], &longest[0], &longest[1], "18446744073709551619"];
    for wrong in wrong.into_iter().chain(NO_COUNTS) {
        for good in ["1", "4", "032"] {
            for (p, q) in [(wrong, good), (good, wrong), (wrong, wrong)] {
                let words = format!("{p:?} {q:?}");
                assert_eq!(told(p, q, "lines"), Written::printed(refused), "{words}");
                assert_eq!(told(p, q, "reference"), Written::said(refused), "{words}");
                assert_eq!(told(p, q, "device"), Written::said(refused), "{words}");
            }
        }
    }
}

#[test]
fn program_refuses_words() {
    let usage = Written::said("bound_pair: WORD is reference, device or lines\n");
    let long = format!("lines{}", " ".repeat(60));
    let wrong = [
        "",
        "Lines",
        "LINES",
        "line",
        "linesx",
        "lines ",
        " lines",
        "l",
        "ines",
        "lines\n",
        "Device",
        "devic",
        "devices",
        "referenc",
        "references",
        "ref",
        "x",
        "3",
        "30",
        &long,
    ];
    for word in wrong {
        for (p, q) in [("3", "4"), ("0", "4"), ("3", "33"), ("", ""), ("x", "259")] {
            assert_eq!(told(p, q, word), usage, "{word:?}");
        }
    }
    let counts: [&[&str]; 10] = [
        &[],
        &[""],
        &["lines"],
        &["3"],
        &["3", "4"],
        &["3", "lines"],
        &["3 4", "lines"],
        &["3 4 lines"],
        &["3", "4", "lines", ""],
        &["", "3", "4", "lines"],
    ];
    for words in counts {
        let words: Vec<String> = words.iter().map(|word| word.to_string()).collect();
        assert_eq!(output(&words), usage, "{words:?}");
    }
}

/// A number of nodes by its digits, one after another.
fn count_of(word: &str) -> Option<usize> {
    let mut value = 0;
    for byte in word.bytes() {
        if !(48..58).contains(&byte) || word.len() > 3 {
            return None;
        }
        value = 10 * value + usize::from(byte - 48);
    }
    (value != 0 && value < 33).then_some(value)
}

/// What is written for random words: nothing on the one side or on the other, and what the call
/// says of the numbers that the words are, with 0 for none.
#[test]
fn program_writes_what_the_call_says() {
    let mut rng = Rng::new(165);
    let mut counts = [0; 7];
    for round in 0..6_400 {
        let words = bound_words(&mut rng, round);
        let answer = output(&words);
        let word = words.get(2).filter(|_| words.len() == 3);
        let kind = match word.map(|word| &word[..]) {
            Some("lines") => 0,
            Some("reference") => 1,
            Some("device") => 2,
            _ => {
                let usage = "bound_pair: WORD is reference, device or lines\n";
                assert_eq!(answer, Written::said(usage), "{words:?}");
                counts[6] += 1;
                continue;
            }
        };
        let count = |word: &str| count_of(word).unwrap_or(0);
        let (p, q) = (count(&words[0]), count(&words[1]));
        let (mut mine, mut theirs) = ([0; 229], [0; 167]);
        let lengths = fill(p as u8, q as u8, &mut mine, &mut theirs);
        counts[kind + 3 * usize::from(lengths.is_err())] += 1;
        let expected = match (lengths, kind) {
            (Err(number), 0) => Written::printed(format!("bound refused {number}\n")),
            (Err(number), _) => Written::said(format!("bound refused {number}\n")),
            (Ok((first, second)), 0) => Written::printed(format!(
                "reference {p} nodes {first} bytes\ndevice {q} nodes {second} bytes\n\
                first failing test {}\n",
                p * q - 1
            )),
            (Ok((first, _)), 1) => Written::printed(&mine[..first]),
            (Ok((_, second)), _) => Written::printed(&theirs[..second]),
        };
        assert_eq!(answer, expected, "{words:?}");
    }
    assert!(counts.iter().all(|&count| count >= 300), "{counts:?}");
}
