//! The two sheets that reach the bound: every p and q in turn, with lists that are just long enough
//! and then with longer ones; any p and q, with lists of every kind; and every two bytes. What the
//! library writes for each p and q it also reads, compares and judges: the last of the p q tests
//! alone fails.

use model::bound::in_range;
use model::comparison::WORDS_A_PAIR;
use model::numbers::{bound_numbers, Bounded, Compared, FAILS, PASSES, STRAY};
use model::planted::bounds::{bound_with, BoundFault};
use model::random::{bound_count, bound_places, no_count, some_count, Rng};
use model::sheet::{has_first_codes, Sheet, MAX_NODES};

use super::{catch, flag, names, shown_sheet};
use crate::edge;
use crate::findings::Findings;
use crate::play::Part;

const CALL: &str = "bound, 0 written or the refusal";
const FIRST: &str = "every p and q in turn, by p";
const SECOND: &str = "every p and q in turn, by q";
const KIND: &str = "every p and q in turn, all tests judged (0), all trace-only tests (1)";
const ONE: &str = "written, p and q 1 (0), p alone (1), q alone (2), neither (3)";
const ORDER: &str = "written, p below q (0), p equals q (1), p above q (2)";
const MINE: &str =
    "written, reference's list exact (0), one more (1), its low 16 bits too few (2), \
    its low byte (3), longer (4)";
const THEIRS: &str = "written, so the device's list";
const RANGE: &str = "refused 30, by p (1), by q (2), by both (3)";
const COUNT: &str =
    "refused 30, a number of nodes 0 (0), 33 (1), its low seven bits in range (2), \
    its low six alone (3), 255 (4), other (5)";
const EITHER: &str = "refused 30, no list too short for so many nodes (0), the reference's (1), \
    the device's (2), both (3)";
const ROOM: &str = "refused 31, by the reference's list (1), by the device's (2), by both (3)";
const SHORT: &str = "refused 31 by one list alone, the reference's without a place (0), one short \
    (1), shorter (2); so the device's (3, 4, 5)";
const OTHER: &str = "refused 31 by one list alone, the other exact (0), longer (1); the two \
    together too short (2), long enough (3)";

/// How many different p and q there are.
const PAIRS: usize = MAX_NODES * MAX_NODES;

pub const PART: Part = Part {
    name: "bounds",
    rounds: 2 * PAIRS as u64,
    findings,
    round,
    demands: |_| {},
};

fn findings() -> Findings {
    let groups = vec![
        (CALL, vec![0, 30, 31]),
        (FIRST, (1..=MAX_NODES as u64).collect()),
        (SECOND, (1..=MAX_NODES as u64).collect()),
        (KIND, vec![0, 1]),
        (ONE, (0..=3).collect()),
        (ORDER, vec![0, 1, 2]),
        (MINE, (0..=4).collect()),
        (THEIRS, (0..=4).collect()),
        (RANGE, vec![1, 2, 3]),
        (COUNT, (0..=5).collect()),
        (EITHER, (0..=3).collect()),
        (ROOM, vec![1, 2, 3]),
        (SHORT, (0..=5).collect()),
        (OTHER, (0..=3).collect()),
    ];
    Findings::new(groups, names(BoundFault::ALL))
}

/// How many bytes the two sheets of p and q nodes have, in range or not.
fn lengths(p: u8, q: u8) -> (usize, usize) {
    (7 * usize::from(p) + 5, 5 * usize::from(q) + 7)
}

/// One p and q of all in turn, with exact lists in the first half of the rounds and longer ones in
/// the second; any calls; calls that are refused, each way in turn; and 32 of all pairs of bytes.
fn round(rng: &mut Rng, round: u64, findings: &mut Findings) {
    let turn = round as usize;
    let (p, q) = (1 + turn / MAX_NODES % MAX_NODES, 1 + turn % MAX_NODES);
    let (p, q) = (p as u8, q as u8);
    let (first, second) = lengths(p, q);
    let places = match turn / PAIRS % 2 {
        0 => (first, second),
        _ => (first + rng.range(1, 40), second + rng.range(1, 40)),
    };
    let (answer, mine, theirs) = try_bound(rng, findings, (p, q), places);
    hold(rng, findings, (p, q), answer, (&mine, &theirs));
    findings.count(FIRST, p.into());
    findings.count(SECOND, q.into());
    for _ in 0..6 {
        let (p, q) = (bound_count(rng), bound_count(rng));
        let places = bound_places(rng, p, q);
        try_bound(rng, findings, (p, q), places);
    }
    let (p, q) = (some_count(rng), some_count(rng));
    let places = short_places(rng, (p, q), 1 + turn % 3);
    try_bound(rng, findings, (p, q), places);
    let (p, q) = match turn % 3 {
        0 => (no_count(rng), some_count(rng)),
        1 => (some_count(rng), no_count(rng)),
        _ => (no_count(rng), no_count(rng)),
    };
    let places = short_places(rng, (p, q), turn / 3 % 4);
    try_bound(rng, findings, (p, q), places);
    let (p, from) = (turn as u8, turn / 256 % 8 * 32);
    for q in from..from + 32 {
        let q = q as u8;
        try_bound(rng, findings, (p, q), lengths(p, q));
    }
}

/// The lengths of two lists of which none (0), the reference's (1), the device's (2) or both (3)
/// are too short.
fn short_places(rng: &mut Rng, (p, q): (u8, u8), which: usize) -> (usize, usize) {
    let (first, second) = lengths(p, q);
    let mut places = |needed: usize, short: bool| match short {
        true => rng.pick(&[0, needed - 1, needed - 1, needed / 2, needed - 4]),
        false => needed + rng.pick(&[0, 0, 1, 20, 2_000]),
    };
    (places(first, which % 2 == 1), places(second, which >= 2))
}

/// One call by the library, by the model, and by each fault that is not caught yet; the whole
/// contents of both lists are compared too. What the library answers and leaves in the lists.
fn try_bound(
    rng: &mut Rng,
    findings: &mut Findings,
    (p, q): (u8, u8),
    places: (usize, usize),
) -> (Bounded, Vec<u8>, Vec<u8>) {
    let mine: Vec<u8> = (0..places.0).map(|_| rng.byte()).collect();
    let theirs: Vec<u8> = (0..places.1).map(|_| rng.byte()).collect();
    let played = |call: &dyn Fn(&mut [u8], &mut [u8]) -> Bounded| {
        let (mut mine, mut theirs) = (mine.clone(), theirs.clone());
        let answer = call(&mut mine, &mut theirs);
        (answer, mine, theirs)
    };
    let ours = played(&|mine, theirs| edge::bound(p, q, mine, theirs));
    let model = played(&|mine, theirs| bound_numbers(p, q, mine, theirs));
    findings.compared(ours == model, || {
        format!(
            "bound of {p} and {q} with {places:?} places: model {:?}, library {:?}; reference {}; \
            device {}",
            model.0,
            ours.0,
            difference(&model.1, &ours.1),
            difference(&model.2, &ours.2)
        )
    });
    count(findings, (p, q), places, model.0.refusal);
    catch(findings, BoundFault::ALL, |fault| {
        played(&|mine, theirs| bound_with(fault, p, q, mine, theirs)) != ours
    });
    ours
}

/// From where on two lists of equal length differ, in some words.
fn difference(model: &[u8], ours: &[u8]) -> String {
    let shown = |list: &[u8], from: usize| list[from..].iter().take(20).copied().collect();
    match (0..model.len()).find(|&place| model[place] != ours[place]) {
        Some(from) => {
            let (model, ours): (Vec<u8>, Vec<u8>) = (shown(model, from), shown(ours, from));
            format!("from place {from} on model {model:?}, library {ours:?}")
        }
        None => "equal".to_string(),
    }
}

/// The classes of a call.
fn count(findings: &mut Findings, (p, q): (u8, u8), places: (usize, usize), refusal: u8) {
    findings.count(CALL, refusal.into());
    let (first, second) = lengths(p, q);
    let short = u64::from(places.0 < first) + 2 * u64::from(places.1 < second);
    match refusal {
        0 => count_written(findings, (p, q), places),
        30 => {
            let wrong = u64::from(!in_range(p)) + 2 * u64::from(!in_range(q));
            findings.count(RANGE, wrong);
            findings.count(EITHER, short);
            let counts = [p, q].into_iter().filter(|&nodes| !in_range(nodes));
            counts.for_each(|nodes| findings.count(COUNT, count_class(nodes)));
        }
        _ => {
            findings.count(ROOM, short);
            let together = u64::from(places.0 + places.1 >= first + second);
            let (class, other, needed) = match short {
                1 => (short_class(places.0, first), places.1, second),
                2 => (3 + short_class(places.1, second), places.0, first),
                _ => return,
            };
            findings.count(SHORT, class);
            findings.count(OTHER, u64::from(other > needed));
            findings.count(OTHER, 2 + together);
        }
    }
}

/// The classes of two sheets that are written.
fn count_written(findings: &mut Findings, (p, q): (u8, u8), places: (usize, usize)) {
    let one = match (p, q) {
        (1, 1) => 0,
        (1, _) => 1,
        (_, 1) => 2,
        _ => 3,
    };
    findings.count(ONE, one);
    findings.count(ORDER, 1 + u64::from(p > q) - u64::from(p < q));
    let (first, second) = lengths(p, q);
    findings.count(MINE, places_class(places.0, first));
    findings.count(THEIRS, places_class(places.1, second));
}

/// The class of a list that is long enough.
fn places_class(places: usize, needed: usize) -> u64 {
    match places - needed {
        0 => 0,
        1 => 1,
        _ if places % (1 << 16) < needed => 2,
        _ if places % (1 << 8) < needed => 3,
        _ => 4,
    }
}

/// The class of a list that is too short.
fn short_class(places: usize, needed: usize) -> u64 {
    match needed - places {
        _ if places == 0 => 0,
        1 => 1,
        _ => 2,
    }
}

/// The class of a number of nodes that is out of range.
fn count_class(nodes: u8) -> u64 {
    match nodes {
        0 => 0,
        33 => 1,
        255 => 4,
        _ if in_range(nodes % 128) => 2,
        _ if in_range(nodes % 64) => 3,
        _ => 5,
    }
}

/// What the library wrote for p and q, held against the demands of 02: both sheets are accepted and
/// have p and q nodes, two events and the codes of version 1; the nearest violation comes after
/// p q - 1 events; and of the p q tests only the last fails, also of the trace-only tests.
fn hold(
    rng: &mut Rng,
    findings: &mut Findings,
    (p, q): (u8, u8),
    answer: Bounded,
    (mine, theirs): (&[u8], &[u8]),
) {
    let front = |list: &[u8], length: u16| {
        let bytes = list.get(..length.into()).unwrap_or_default();
        edge::read(bytes)
    };
    let (mine, theirs) = (front(mine, answer.reference), front(theirs, answer.device));
    for (read, n) in [(&mine, p), (&theirs, q)] {
        let sheet = &read.sheet;
        let good = (read.number, sheet.n, sheet.e) == (0, n, 2) && has_first_codes(sheet);
        findings.compared(good, || {
            format!(
                "bound of {p} and {q}: read {} {}",
                read.number,
                shown_sheet(sheet)
            )
        });
    }
    for trace_only in [false, true] {
        let traces = flag(rng, trace_only);
        nearest(findings, (&mine.sheet, &theirs.sheet), (p, q), traces);
        judged(findings, (&mine.sheet, &theirs.sheet), (p, q), traces);
        findings.count(KIND, trace_only.into());
    }
}

/// The library's comparison of the two sheets: every other pair of nodes is cleared before the
/// last, where event 1 strays; the trace goes round the device p times, but for its end.
fn nearest(
    findings: &mut Findings,
    (mine, theirs): (&Sheet, &Sheet),
    (p, q): (u8, u8),
    traces: u8,
) {
    let pairs = usize::from(p) * usize::from(q);
    let (mut work, mut trace) = (vec![9; WORDS_A_PAIR * pairs], vec![9; pairs - 1]);
    let answer = edge::compare(mine, theirs, traces, &mut work, &mut trace);
    let last = (pairs - 1) as u16;
    let expected = Compared {
        refusal: 0,
        kind: STRAY,
        d: last,
        cleared: last,
        event: 1,
        probe: 0,
        acceptance: 0,
    };
    let event = |place: usize| u8::from((place + 1) % usize::from(q) == 0);
    let round = (0..pairs - 1).all(|place| trace[place] == event(place));
    findings.compared(answer == expected && round, || {
        format!("compare {traces} of the bound of {p} and {q}: library {answer:?} {trace:?}")
    });
}

/// The library's verdicts on all tests of the two sheets: only the last fails.
fn judged(findings: &mut Findings, (mine, theirs): (&Sheet, &Sheet), (p, q): (u8, u8), traces: u8) {
    let tests = usize::from(p) * usize::from(q);
    let mut kinds = vec![9; tests];
    let answer = edge::judge_all(mine, theirs, traces, &mut kinds);
    let mut expected = vec![PASSES; tests];
    expected[tests - 1] = FAILS;
    let good = answer.refusal == 0 && usize::from(answer.count) == tests && kinds == expected;
    findings.compared(good, || {
        format!("judge_all {traces} of the bound of {p} and {q}: library {answer:?} {kinds:?}")
    });
}
