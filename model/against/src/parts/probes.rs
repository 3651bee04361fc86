//! Probe lists: every node of sheets of every size, lent lists of every length around the
//! number of probes, nodes that are not there, and kept sheets with any content.

use model::numbers::{list_numbers, Listed};
use model::planted::probes::{fill_with, found_with, ProbeFault};
use model::probes::probes;
use model::random::{crowded_sheet, full_sheet, sheet_of_size, Rng};
use model::sheet::{check, Sheet, MAX_EVENTS, MAX_NODES};

use super::{bad_sheet, catch, names, shown_sheet};
use crate::edge;
use crate::findings::Findings;
use crate::play::Part;

const LIST: &str = "list, 0 listed or the refusal";
const LENGTH: &str = "list, lent 0 none, 1 one short, 2 exact, 3 one more, 4 longer, 5 shorter";
const COUNT: &str = "listed, 0 (0), 1 (1), 2 to 9 (2), 10 to 99 (3), 100 and more (4) probes";
const ORDER: &str =
    "listed, 0 the list ascends by number, 1 only its first probe is the lowest, 2 not even that";
const LARGE: &str = "listed at a node with 12 events and 16 sets";

pub const PART: Part = Part {
    name: "probes",
    rounds: 6_000,
    findings,
    round,
    demands: |_| {},
};

fn findings() -> Findings {
    let groups = vec![
        (LIST, vec![0, 3, 5, 6, 7, 8, 9, 10, 18]),
        (LENGTH, (0..=5).collect()),
        (COUNT, vec![0, 1, 2, 3, 4]),
        (ORDER, vec![0, 1, 2]),
        (LARGE, vec![12]),
    ];
    Findings::new(groups, names(ProbeFault::ALL))
}

/// One node of a valid sheet with lists of every length around the number of its probes,
/// a node that the sheet does not have, and a sheet of any content.
fn round(rng: &mut Rng, round: u64, findings: &mut Findings) {
    let e = 1 + round as usize % MAX_EVENTS;
    let n = match round % 3 {
        0 => rng.range(16, MAX_NODES),
        1 => rng.range(4, 15),
        _ => rng.range(1, 6),
    };
    let sheet = match round % 16 {
        0 => full_sheet(rng),
        8 => crowded_sheet(rng),
        _ => sheet_of_size(rng, e, n),
    };
    let node = rng.below(sheet.n as usize) as u8;
    let list = probes(&sheet, node);
    let m = list.len();
    findings.count(COUNT, digits(m));
    findings.count(
        ORDER,
        moved(&list, &found_with(ProbeFault::ByNumber, &sheet, node)),
    );
    if sheet.e == 12 && sheet.row(node).c == 16 {
        findings.count(LARGE, 12);
    }
    let longer = m + rng.range(2, 40);
    let shorter = rng.below(m + 1);
    for length in [m, m + 1, m.saturating_sub(1), 0, longer, shorter] {
        try_list(rng, findings, &sheet, node, length, m);
    }
    let absent = rng.pick(&[sheet.n, 32, 33, 255]);
    try_list(rng, findings, &sheet, absent, m + 1, m);
    let bad = bad_sheet(rng);
    let node = if rng.one_in(3) {
        rng.byte()
    } else {
        rng.below((bad.n as usize).clamp(1, 32)) as u8
    };
    let length = rng.pick(&[0, 1, 8, 1_000]);
    try_list(rng, findings, &bad, node, length, length);
}

/// The class of a number of probes.
fn digits(m: usize) -> u64 {
    match m {
        0 => 0,
        1 => 1,
        2..=9 => 2,
        10..=99 => 3,
        _ => 4,
    }
}

/// How a list stands beside the same one by number.
fn moved(list: &[u16], by_number: &[u16]) -> u64 {
    u64::from(list != by_number) + u64::from(list.first() != by_number.first())
}

/// One list by the library, by the model, and by each fault that is not caught yet; the
/// whole contents of the lent list are compared too.
fn try_list(
    rng: &mut Rng,
    findings: &mut Findings,
    sheet: &Sheet,
    node: u8,
    length: usize,
    m: usize,
) {
    let lent: Vec<u16> = (0..length).map(|_| rng.word()).collect();
    let mut ours = lent.clone();
    let answer = edge::list(sheet, node, &mut ours);
    let mut models = lent.clone();
    let model = list_numbers(sheet, node, &mut models);
    findings.compared(answer == model && ours == models, || {
        format!(
            "list of node {node} with {length} places of {}: model {model:?} {models:?}, library {answer:?} {ours:?}",
            shown_sheet(sheet)
        )
    });
    findings.count(LIST, u64::from(model.refusal));
    if check(sheet) == 0 && node < sheet.n {
        let class = match length {
            0 => 0,
            _ if length + 1 == m => 1,
            _ if length == m => 2,
            _ if length == m + 1 => 3,
            _ if length > m => 4,
            _ => 5,
        };
        findings.count(LENGTH, class);
    }
    catch(findings, ProbeFault::ALL, |fault| {
        let mut other = lent.clone();
        let (refusal, count) = fill_with(fault, sheet, node, &mut other);
        Listed { refusal, count } != answer || other != ours
    });
}
