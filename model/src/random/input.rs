//! Inputs for the programs: two sheets back to back, one sheet, or a call of `live`; good, damaged,
//! cut or too long.

use super::codes::{recoded, spelled};
use super::damage::{damaged, damaged_twice, noise_bytes, AIMS_READ};
use super::pairs::pair;
use super::raw::{full_sheet, mixed_sheet, random_sheet};
use super::Rng;
use crate::sheet::{after, Sheet};
use crate::text::live::Call;

/// An input for a program that reads two sheets. About half of the inputs are two good sheets with
/// equal E and equal codes.
pub fn program_input(rng: &mut Rng) -> Vec<u8> {
    let (reference, device) = pair(rng);
    let (mut first, mut second) = (spelled(rng, &reference), spelled(rng, &device));
    let aim = rng.pick(&AIMS_READ);
    match rng.below(18) {
        0 => first = damaged(rng, aim),
        1 | 2 => second = damaged(rng, aim),
        3 => second = damaged_twice(rng),
        4 => {
            let other = random_sheet(rng);
            second = spelled(rng, &other);
        }
        5 => second.push(rng.byte()),
        6 => second.clear(),
        7 => return long_input(rng, first),
        8 => return noise_bytes(rng),
        9 => {
            let other = recoded(rng, &device);
            second = spelled(rng, &other);
        }
        _ => {}
    }
    first.extend_from_slice(&second);
    first
}

/// A good first sheet and a second that ends near byte 4,096, with a length field that
/// fits either the whole of it or what is read of it, of either version, with a good or a bad E.
fn long_input(rng: &mut Rng, mut bytes: Vec<u8>) -> Vec<u8> {
    let total = rng.range(4_090, 4_200);
    let seen = if rng.one_in(2) {
        total
    } else {
        total.min(4_096)
    };
    let field = (seen - bytes.len() - 4) as u32;
    bytes.extend_from_slice(&field.to_be_bytes());
    bytes.extend_from_slice(&[rng.pick(&[1, 2]), rng.pick(&[1, 12, 13]), 32]);
    bytes.resize(total, rng.pick(&[0, 1, 255]));
    bytes
}

/// An input for a program that reads one sheet: a good sheet, each refusal of a reading in turn, a
/// few bytes, or bytes around the most that is read.
pub fn sheet_input(rng: &mut Rng, round: u64) -> Vec<u8> {
    let aim = AIMS_READ[(round / 8) as usize % AIMS_READ.len()];
    match round % 8 {
        0 => (0..rng.below(8)).map(|_| rng.byte()).collect(),
        1 | 2 => damaged(rng, aim),
        3 if rng.one_in(2) => damaged_twice(rng),
        3 => long_sheet(rng),
        4 if rng.one_in(2) => {
            let sheet = full_sheet(rng);
            spelled(rng, &sheet)
        }
        _ => {
            let sheet = random_sheet(rng);
            spelled(rng, &sheet)
        }
    }
}

/// A sheet that ends near byte 4,096, as `long_input` has it in the second place.
fn long_sheet(rng: &mut Rng) -> Vec<u8> {
    long_input(rng, Vec::new())
}

/// A call of `live`: a good reference, at times with probes of different sizes, or a damaged one,
/// words of which some are wrong, and lines of which most are reports that the run admits.
pub fn live_call(rng: &mut Rng, round: u64) -> Call {
    let aim = AIMS_READ[(round / 8) as usize % AIMS_READ.len()];
    let sheet = match round % 8 {
        2 => mixed_sheet(rng),
        _ => random_sheet(rng),
    };
    let traces = rng.one_in(3);
    let k = match rng.below(8) {
        0 => rng.pick(&[1_023, 1_024, 65_535]),
        1 => rng.range(10, 30),
        2 if traces => 0,
        _ => rng.below(5),
    };
    let h = if rng.one_in(2) {
        rng.below(4)
    } else {
        usize::from(rng.word())
    };
    let mut words = vec![k.to_string(), h.to_string()];
    if traces {
        words.push("traces".to_string());
    }
    match round % 24 {
        7 => words[rng.below(2)] = wrong_word(rng),
        15 => words.push(wrong_word(rng)),
        23 => words.truncate(rng.below(2)),
        _ => {}
    }
    let file = match round % 8 {
        6 => damaged(rng, aim),
        _ => spelled(rng, &sheet),
    };
    let typed = typed_lines(rng, &sheet, k.min(40), traces);
    Call { file, words, typed }
}

/// A word that is no number of at most five digits up to 65,535, and not `traces`.
pub(super) fn wrong_word(rng: &mut Rng) -> String {
    let words = [
        "", "x", "65536", "99999", "000000", "-1", "+1", "1x", " 1", "trace", "Traces", "tracesx",
    ];
    rng.pick(&words).to_string()
}

/// Some lines, about as many as a run of depth `k` takes; at times the last has no newline. A
/// trace-only run is blocked more often, most of all at nodes that may stop and at depth `k`.
fn typed_lines(rng: &mut Rng, sheet: &Sheet, k: usize, traces: bool) -> Vec<u8> {
    let mut typed = Vec::new();
    let (mut node, mut depth) = (0, 0);
    for _ in 0..rng.below(k + 3) + usize::from(rng.one_in(2)) * k {
        let known: Vec<u8> = (0..sheet.e)
            .filter(|&event| after(sheet, node, event).is_some())
            .collect();
        let event = match known.len() {
            0 => rng.below(12) as u8,
            _ if rng.one_in(12) => rng.below(sheet.e.into()) as u8,
            _ => rng.pick(&known),
        };
        let blocks = match traces {
            false => 1,
            true if depth >= k => 16,
            true if sheet.row(node).may_stop() => 8,
            true => 3,
        };
        let line = match rng.below(24) {
            0 => wrong_line(rng),
            1 => format!("event 0{event}"),
            place if place < 2 + blocks => "blocked".to_string(),
            _ => format!("event {event}"),
        };
        if line.starts_with("event") {
            node = after(sheet, node, event).unwrap_or(node);
            depth += 1;
        }
        typed.extend_from_slice(line.as_bytes());
        if rng.one_in(8) {
            typed.push(b'\r');
        }
        typed.push(b'\n');
    }
    if rng.one_in(4) && !typed.is_empty() {
        typed.pop();
    }
    typed
}

/// A line that is no report, or one of an event that no sheet has.
fn wrong_line(rng: &mut Rng) -> String {
    let lines = [
        "",
        "event",
        "event ",
        "event  0",
        " event 0",
        "event 0 ",
        "event x",
        "Event 0",
        "block",
        "Blocked",
        "blocked ",
        "0",
        "event 12",
        "event 255",
        "event 256",
        "event 999",
        "event 0000",
        "event -0",
        "event +1",
        "event 0\r",
    ];
    rng.pick(&lines).to_string()
}
