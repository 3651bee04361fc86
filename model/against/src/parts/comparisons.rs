//! Comparisons: pairs that refine and that do not, near and far, both kinds, with work and
//! trace lists of every length around the limits, work lists whose later words are left, sheets
//! that are refused, and pairs with unequal codes.

use model::comparison::{MAX_WORDS, WORDS_A_PAIR};
use model::numbers::{self, compare_numbers, compared, Compared};
use model::planted::comparisons::{compare_with, CompareFault};
use model::random::{
    deep_pair, length_around, pair, random_sheet, recoded, refusing_pair, small_pair, work_length,
    Rng,
};
use model::sheet::{has_first_codes, Sheet, MAX_EVENTS};

use super::{
    bad_sheet, catch, codes_class, count_sheets, flag, lone_place, names, shown_sheet, KEPT,
};
use crate::edge;
use crate::findings::Findings;
use crate::play::Part;

const COMPARE: &str = "compare, 0 compared or the refusal";
const MINE: &str = "compare, the refusals of the reference";
const THEIRS: &str = "compare, the refusals of the device";
const BOTH: &str = "compare, both sheets refused with different numbers";
const PAIRS: &str = "pairs of accepted sheets with equal events and codes";
const AGREE: &str = "compared, 0 with the codes of version 1, 1 with others";
const EVENTS: &str = "compare refused 11, 0 the codes of the events that both have agree, 1 not";
const CODES: &str =
    "compare refused 19, 0 the last code alone, 1 another alone, 2 another order, 3 otherwise";
const PLACE: &str = "compare refused 19, one code alone, by its event";
const SHORT: &str =
    "compare refused 19, 0 lists long enough, 1 work list short, 2 trace list alone short";
const REFINES: &str = "refines, 0 or trace-only 1";
const STRAYS: &str = "strays at d 0 (0), 1 to 9 (1), 10 to 99 (2), 100 and more (3)";
const REFUSALS: &str = "refusals at d 0 (0), 1 to 9 (1), 10 to 99 (2), 100 and more (3)";
const NAMED: &str = "refusals, 0 the lowest probe that is missed is named, \
    1 another with the acceptance that misses that one, 2 with another acceptance";
const TRACES: &str = "trace-only strays at d 0 (0), 1 to 9 (1), 10 to 99 (2), 100 and more (3)";
const WORK: &str = "work lists 0 none, 1 one short, 2 exact, 3 one more, 4 longer, 5 shorter";
const LATER: &str =
    "answered, work lists of 2 p q words (0), up to 3 p q - 2 (1), 3 p q - 1 (2), 3 p q (3), more (4)";
const TRACE: &str = "trace lists 0 none, 1 one short, 2 exact, 3 one more, 4 longer, 5 shorter";

pub const PART: Part = Part {
    name: "comparisons",
    rounds: 6_000,
    findings,
    round,
    demands,
};

fn findings() -> Findings {
    let groups = vec![
        (COMPARE, vec![0, 3, 5, 6, 7, 8, 11, 12, 13, 18, 19]),
        (MINE, KEPT.to_vec()),
        (THEIRS, KEPT.to_vec()),
        (BOTH, vec![1]),
        (PAIRS, vec![1]),
        (AGREE, vec![0, 1]),
        (EVENTS, vec![0, 1]),
        (CODES, (0..=3).collect()),
        (PLACE, (0..MAX_EVENTS as u64).collect()),
        (SHORT, vec![0, 1, 2]),
        (REFINES, vec![0, 1]),
        (STRAYS, vec![0, 1, 2, 3]),
        (REFUSALS, vec![0, 1, 2, 3]),
        (NAMED, vec![0, 1, 2]),
        (TRACES, vec![0, 1, 2, 3]),
        (WORK, (0..=5).collect()),
        (LATER, (0..=4).collect()),
        (TRACE, (0..=5).collect()),
    ];
    Findings::new(groups, names(CompareFault::ALL))
}

/// One pair with lists that are long enough, and with one list around its limit; a pair with
/// other codes; a pair of which a sheet is refused, or with other events; and a pair that ends in a
/// refusal which shows the order of the probes.
fn round(rng: &mut Rng, round: u64, findings: &mut Findings) {
    let (reference, device) = match round % 6 {
        0 | 1 => deep_pair(rng),
        2 => small_pair(rng),
        _ => pair(rng),
    };
    findings.count(PAIRS, 1);
    let trace_only = rng.one_in(3);
    let pairs = reference.n as usize * device.n as usize;
    let (words, places) = (WORDS_A_PAIR * pairs, pairs - 1);
    let more = (rng.below(9), rng.below(9));
    try_compare(
        rng,
        findings,
        (&reference, &device),
        trace_only,
        (words + more.0, places + more.1),
    );
    let lengths = match rng.below(4) {
        0 => (work_length(rng, pairs), places),
        1 => (words, length_around(rng, places)),
        2 => (work_length(rng, pairs), length_around(rng, places)),
        _ => (words, places),
    };
    try_compare(rng, findings, (&reference, &device), trace_only, lengths);
    let other = recoded(rng, &device);
    let lengths = rng.pick(&[(0, 0), (words, 0), (0, places), (words, places)]);
    try_compare(rng, findings, (&reference, &other), trace_only, lengths);
    let (mut first, mut second) = (reference, device);
    match rng.below(5) {
        0 => first = bad_sheet(rng),
        1 => second = bad_sheet(rng),
        2 => (first, second) = (bad_sheet(rng), bad_sheet(rng)),
        _ => second = random_sheet(rng),
    }
    let lengths = rng.pick(&[(0, 0), (MAX_WORDS, 1_023), (words, places)]);
    try_compare(rng, findings, (&first, &second), trace_only, lengths);
    if rng.one_in(4) {
        let (reference, device) = refusing_pair(rng);
        let both = (&reference, &device);
        try_compare(rng, findings, both, false, (MAX_WORDS, 1_023));
    }
}

/// The class of a length beside its limit.
fn class(length: usize, limit: usize) -> u64 {
    match length {
        0 => 0,
        _ if length + 1 == limit => 1,
        _ if length == limit => 2,
        _ if length == limit + 1 => 3,
        _ if length > limit => 4,
        _ => 5,
    }
}

/// The class of the words after the first 2·p·q, which an answered comparison leaves.
fn later(left: usize, pairs: usize) -> u64 {
    match left {
        0 => 0,
        _ if left + 1 < pairs => 1,
        _ if left + 1 == pairs => 2,
        _ if left == pairs => 3,
        _ => 4,
    }
}

fn digits(d: u16) -> u64 {
    match d {
        0 => 0,
        1..=9 => 1,
        10..=99 => 2,
        _ => 3,
    }
}

fn demands(findings: &mut Findings) {
    let pairs = findings.counted(PAIRS, 1);
    findings.demand(pairs >= 5_000, "5,000 pairs");
    for group in [STRAYS, REFUSALS] {
        let far = findings.counted(group, 3);
        findings.demand(
            far >= 300,
            "some hundred violations of each kind at d 100 and more",
        );
    }
}

/// One comparison by the library, by the model, and by each fault that is not caught yet;
/// the whole contents of both lists are compared too.
fn try_compare(
    rng: &mut Rng,
    findings: &mut Findings,
    (reference, device): (&Sheet, &Sheet),
    trace_only: bool,
    (words, places): (usize, usize),
) {
    let traces = flag(rng, trace_only);
    let work: Vec<u16> = (0..words).map(|_| rng.word()).collect();
    let list: Vec<u8> = (0..places).map(|_| rng.byte()).collect();
    let (mut ours_work, mut ours_list) = (work.clone(), list.clone());
    let ours = edge::compare(reference, device, traces, &mut ours_work, &mut ours_list);
    let (mut work_model, mut list_model) = (work.clone(), list.clone());
    let model = compare_numbers(reference, device, traces, &mut work_model, &mut list_model);
    let equal = ours == model && ours_work == work_model && ours_list == list_model;
    findings.compared(equal, || {
        let place = ours_work.iter().zip(&work_model).position(|(a, b)| a != b);
        let event = ours_list.iter().zip(&list_model).position(|(a, b)| a != b);
        format!(
            "compare {traces} with {words} words and {places} places of {} against {}: \
             model {model:?}, library {ours:?}, work at {place:?}, trace at {event:?}",
            shown_sheet(device),
            shown_sheet(reference)
        )
    });
    count(findings, &model, trace_only);
    count_sheets(findings, [MINE, THEIRS, BOTH], reference, device);
    let pairs = reference.n as usize * device.n as usize;
    if matches!(model.refusal, 0 | 12 | 13) {
        count_lists(findings, pairs, (words, places), model.refusal);
    }
    if model.refusal == 0 {
        findings.count(AGREE, u64::from(!has_first_codes(reference)));
    }
    if model.refusal == 11 {
        let (mine, theirs) = (reference.used_codes(), device.used_codes());
        let differ = mine.iter().zip(theirs).any(|(a, b)| a != b);
        findings.count(EVENTS, u64::from(differ));
    }
    if model.refusal == 19 {
        count_codes(findings, reference, device);
        let short = match (words < WORDS_A_PAIR * pairs, places + 1 < pairs) {
            (true, _) => 1,
            (false, true) => 2,
            (false, false) => 0,
        };
        findings.count(SHORT, short);
    }
    let played = |fault| {
        let (mut work, mut list) = (work.clone(), list.clone());
        let answer = compare_with(fault, reference, device, trace_only, &mut work, &mut list);
        (compared(&answer), work, list)
    };
    if model.kind == numbers::REFUSAL {
        let (by_number, _, _) = played(CompareFault::ByNumber);
        findings.count(NAMED, renamed(&model, &by_number));
    }
    catch(findings, CompareFault::ALL, |fault| {
        let (other, work, list) = played(fault);
        other != ours || work != ours_work || list != ours_list
    });
}

/// How a refusal stands beside the one that a list by number leads to.
fn renamed(model: &Compared, by_number: &Compared) -> u64 {
    let moved = model.probe != by_number.probe;
    u64::from(moved) + u64::from(model.acceptance != by_number.acceptance)
}

/// Counts how the codes of two sheets differ.
fn count_codes(findings: &mut Findings, reference: &Sheet, device: &Sheet) {
    findings.count(CODES, codes_class(reference, device));
    if let Some(place) = lone_place(reference, device) {
        findings.count(PLACE, place as u64);
    }
}

/// Counts the lengths of the lists that two accepted sheets with equal events and codes were
/// compared on.
fn count_lists(
    findings: &mut Findings,
    pairs: usize,
    (words, places): (usize, usize),
    refusal: u8,
) {
    let limit = WORDS_A_PAIR * pairs;
    findings.count(WORK, class(words, limit));
    findings.count(TRACE, class(places, pairs - 1));
    if refusal == 0 {
        findings.count(LATER, later(words - limit, pairs));
    }
}

fn count(findings: &mut Findings, answer: &Compared, trace_only: bool) {
    findings.count(COMPARE, u64::from(answer.refusal));
    match (answer.kind, trace_only) {
        (numbers::REFINES, _) => findings.count(REFINES, u64::from(trace_only)),
        (numbers::STRAY, false) => findings.count(STRAYS, digits(answer.d)),
        (numbers::STRAY, true) => findings.count(TRACES, digits(answer.d)),
        (numbers::REFUSAL, _) => findings.count(REFUSALS, digits(answer.d)),
        _ => {}
    }
}
