//! Random sheets on which walks go on or end, seeds, wishes and lent lists, and calls of the
//! program that walks.

use super::codes::{random_codes, spelled};
use super::damage::{damaged, AIMS_READ};
use super::input::sheet_input;
use super::keypads::around_most;
use super::lists::length_around;
use super::raw::{antichain, full_sheet, random_nodes, random_raw, random_sheet, Raw};
use super::Rng;
use crate::load::MAX_WALK;
use crate::sheet::{Sheet, MAX_EVENTS, MAX_NODES, MAX_SETS, NO_NODE};
use crate::text::walk::Call;
use crate::text::MAX_INPUT;

/// An accepted sheet: one with all successors, on which no walk ends, any, one on which walks end,
/// sooner or later, or one without initials at its start.
pub fn walk_sheet(rng: &mut Rng) -> Sheet {
    match rng.below(8) {
        0 => full_sheet(rng),
        1 | 2 => random_sheet(rng),
        3 | 4 => ending_sheet(rng),
        5 | 6 => climbing_sheet(rng),
        _ => still_sheet(rng),
    }
}

/// A sheet of one node without initials.
pub fn still_sheet(rng: &mut Rng) -> Sheet {
    let e = rng.range(1, MAX_EVENTS);
    let mut raw = Raw::new(e as u8, vec![(vec![NO_NODE; e], vec![0])]);
    (raw.version, raw.codes) = random_codes(rng, e);
    raw.keep()
}

/// A sheet on which a walk ends at one node, to which just one event of one other node leads; every
/// other node has initials. If all places of the others are taken, no walk ends.
pub fn ending_sheet(rng: &mut Rng) -> Sheet {
    let e = rng.range(1, MAX_EVENTS);
    let n = random_nodes(rng).min(MAX_NODES - 1);
    let mut raw = random_raw(rng, e, n);
    let places = (0..n).flat_map(|node| (0..e).map(move |event| (node, event)));
    let free = |&(node, event): &(usize, usize)| raw.nodes[node].0[event] == NO_NODE;
    let free: Vec<(usize, usize)> = places.filter(free).collect();
    if !free.is_empty() {
        let (node, event) = rng.pick(&free);
        raw.nodes[node].0[event] = n as u8;
    }
    for node in 0..n {
        if raw.initials(node) == 0 {
            raw.nodes[node].0[rng.below(e)] = rng.below(n) as u8;
        }
    }
    if !free.is_empty() {
        raw.nodes.push((vec![NO_NODE; e], Vec::new()));
    }
    finished(rng, raw)
}

/// A sheet on which a walk climbs on one event of each node and falls back on some others; it ends
/// at the top, mostly after many steps.
pub fn climbing_sheet(rng: &mut Rng) -> Sheet {
    let e = rng.range(2, MAX_EVENTS);
    let events = rng.range(2, e.min(4));
    let top = rng.range(1, [11, 7, 5][events - 2]);
    let mut raw = Raw::new(e as u8, vec![(vec![NO_NODE; e], Vec::new()); top + 1]);
    (raw.version, raw.codes) = random_codes(rng, e);
    let far = rng.one_in(2);
    for node in 0..top {
        let mut order: Vec<usize> = (0..e).collect();
        rng.shuffle(&mut order);
        for &event in &order[1..events] {
            let back = if far { 0 } else { rng.below(node + 1) };
            raw.nodes[node].0[event] = back as u8;
        }
        raw.nodes[node].0[order[0]] = node as u8 + 1;
    }
    finished(rng, raw)
}

/// The kept sheet of some nodes, which get any numbers and any sets.
fn finished(rng: &mut Rng, mut raw: Raw) -> Sheet {
    if !rng.one_in(3) {
        raw.rename_at_random(rng);
    }
    for node in 0..raw.nodes.len() {
        raw.nodes[node].1 = antichain(rng, raw.initials(node), MAX_SETS);
    }
    raw.keep()
}

/// A seed, at times 0.
pub fn walk_seed(rng: &mut Rng) -> u32 {
    match rng.one_in(12) {
        true => 0,
        false => some_seed(rng),
    }
}

/// A seed that is not 0: a small one, one at an edge, one bit alone, one whose low bits are 0, or
/// any.
pub fn some_seed(rng: &mut Rng) -> u32 {
    let seed = match rng.below(8) {
        0 => rng.range(1, 20) as u32,
        1 => rng.pick(&[1, 1, 65_535, 65_536, 1 << 31, (1 << 31) - 1, u32::MAX - 1]),
        2 => u32::MAX,
        3 => 1 << rng.below(32),
        4 => u32::from(rng.word()) << rng.pick(&[8, 16]),
        _ => rng.next_u64() as u32,
    };
    seed.max(1)
}

/// A wished length, at times one over 4,096.
pub fn walk_wish(rng: &mut Rng) -> u16 {
    match rng.one_in(8) {
        true => too_far(rng),
        false => some_wish(rng),
    }
}

/// A wished length up to 4,096: none, one, a few, more, or nearly the most.
pub fn some_wish(rng: &mut Rng) -> u16 {
    let most = usize::from(MAX_WALK);
    let wish = match rng.below(10) {
        0 => rng.below(2),
        1..=3 => rng.range(2, 30),
        4 | 5 => rng.range(31, 400),
        6 => rng.range(401, most),
        7 => rng.range(most - 3, most),
        8 => most,
        _ => rng.pick(&[127, 128, 129, 255, 256, 257]),
    };
    wish as u16
}

/// A wish over 4,096: the next one, one whose low bits are no more than 4,096, the most, or any.
fn too_far(rng: &mut Rng) -> u16 {
    match rng.below(5) {
        0 | 1 => MAX_WALK + 1,
        2 => 8_192 * rng.range(1, 7) as u16 + rng.below(30) as u16,
        3 => u16::MAX,
        _ => rng.word().max(MAX_WALK + 1),
    }
}

/// The length of a lent list: exact or longer, around the wish, or so long that its low 16 bits are
/// less than the wish.
pub fn walk_places(rng: &mut Rng, wish: u16) -> usize {
    let wish = usize::from(wish);
    match rng.below(24) {
        0 => (1 << 16) + rng.below(wish + 1),
        1..=10 => wish + rng.pick(&[0, 0, 1, 2, 30, 5_000]),
        _ => length_around(rng, wish),
    }
}

/// A call of `walk`: mostly a good sheet; each refusal of a sheet in turn, a few bytes, bytes that
/// end around the most that is read or have a length field that fits it, a good sheet with some
/// bytes after it, or any other input; and words of every kind.
pub fn walk_call(rng: &mut Rng, round: u64) -> Call {
    let aim = AIMS_READ[(round / 8) as usize % AIMS_READ.len()];
    let sheet = walk_sheet(rng);
    let mut input = spelled(rng, &sheet);
    match round % 16 {
        0 => input = (0..rng.below(8)).map(|_| rng.byte()).collect(),
        8 => input = sheet_input(rng, round / 16),
        1 | 9 => input = damaged(rng, aim),
        2 => input = around_most(rng, input),
        10 if rng.one_in(2) => input = cut_input(rng),
        10 => {
            let more = rng.pick(&[1, 2, 4, 19, 4_096, 5_000]);
            input.resize(input.len() + more, rng.pick(&[0, b'\n', u8::MAX]));
        }
        _ => {}
    }
    let words = walk_words(rng);
    Call { input, words }
}

/// An input of more bytes than are read, with a length field that fits the most that is read.
fn cut_input(rng: &mut Rng) -> Vec<u8> {
    let field = (MAX_INPUT - 4) as u32;
    let head = [rng.pick(&[1, 2, 3]), rng.pick(&[1, 12, 13]), 32];
    let mut input = [&field.to_be_bytes()[..], &head].concat();
    input.resize(MAX_INPUT + rng.range(1, 60), rng.pick(&[0, 1, u8::MAX]));
    input
}

/// The words of a call: mostly a seed and a length, at times with zeros before them; a wrong seed
/// with any length, a wrong length, or another number of words.
fn walk_words(rng: &mut Rng) -> Vec<String> {
    let (seed, length) = (seed_word(rng), length_word(rng));
    match rng.below(24) {
        0 | 1 => other_count(rng, seed, length),
        2..=4 => vec![wrong_seed(rng), length],
        5 | 6 => vec![wrong_seed(rng), wrong_length(rng)],
        7..=11 => vec![seed, wrong_length(rng)],
        _ => vec![seed, length],
    }
}

/// A seed, at times with zeros before it, up to ten digits.
fn seed_word(rng: &mut Rng) -> String {
    let seed = match rng.one_in(16) {
        true => 1,
        false => some_seed(rng),
    };
    padded(rng, seed.into(), 10)
}

/// A wished length up to 4,096, at times with zeros before it, up to five digits.
fn length_word(rng: &mut Rng) -> String {
    let wish = match rng.one_in(16) {
        true => MAX_WALK,
        false => some_wish(rng),
    };
    padded(rng, wish.into(), 5)
}

/// A number, at times with zeros before it, up to so many digits.
pub(super) fn padded(rng: &mut Rng, number: u64, digits: usize) -> String {
    let width = match rng.below(5) {
        0 => digits,
        1 => rng.range(2, digits - 1),
        _ => 1,
    };
    format!("{number:0width$}")
}

/// No word, one word, at times both with a blank between them, or three words.
fn other_count(rng: &mut Rng, seed: String, length: String) -> Vec<String> {
    let third = rng.pick(&["", "0", "8", "x", " "]).to_string();
    match rng.below(10) {
        0..=2 => Vec::new(),
        3 => vec![seed],
        4 => vec![rng.pick(&["", "0", "x", "1x"]).to_string()],
        5 => vec![format!("{seed} {length}")],
        6 | 7 => vec![seed, length, third],
        8 => vec![String::new(), seed, length],
        _ => vec!["0".repeat(rng.range(65, 100)), seed, length],
    }
}

/// A word that is no seed: 0; a number above 4,294,967,295, of which the low bits are 0 or a seed;
/// a seed but for more digits; or no number.
fn wrong_seed(rng: &mut Rng) -> String {
    let (seed, past) = (some_seed(rng), 1 << 32);
    let few = rng.range(1, 30) as u64;
    let width = rng.pick(&[12, 20, 64]);
    match rng.below(20) {
        0 | 1 => String::new(),
        2 | 3 => "0".repeat(rng.pick(&[1, 1, 2, 5, 9, 10])),
        4 | 5 => past.to_string(),
        6 => (past * rng.range(1, 2) as u64 + few).to_string(),
        7 => rng.pick(&["9999999999", "5000000000"]).to_string(),
        8 | 9 => format!("{seed:011}"),
        10 => (3 * past + few).to_string(),
        11 => format!("{seed:0width$}"),
        12 => (u128::from(u64::MAX) + 1 + u128::from(few)).to_string(),
        13 | 14 => longest(rng, seed.into()),
        15 => no_number(rng),
        _ => disguised(rng, few),
    }
}

/// A word that is no length: a number above 4,096, or above 65,535, of which the low bits are a
/// length; a length but for more digits; or no number.
fn wrong_length(rng: &mut Rng) -> String {
    let wish = some_wish(rng);
    let few = rng.below(30) as u64;
    let width = rng.pick(&[7, 10, 64]);
    match rng.below(20) {
        0 | 1 => String::new(),
        2 | 3 => rng.pick(&["4097", "04097"]).to_string(),
        4 | 5 => too_far(rng).to_string(),
        6 => rng.pick(&["04098", "65535", "9999"]).to_string(),
        7 => (65_536 + few).to_string(),
        8 => rng.pick(&["65536", "99999"]).to_string(),
        9 => format!("{wish:06}"),
        10 => rng.pick(&["100000", "131080", "999999"]).to_string(),
        11 | 12 => format!("{wish:0width$}"),
        13 | 14 => longest(rng, wish.into()),
        15 => no_number(rng),
        _ => disguised(rng, few),
    }
}

/// A number with so many zeros before it that the word has more than 64 bytes.
pub(super) fn longest(rng: &mut Rng, number: u64) -> String {
    let width = rng.pick(&[65, 66, 100]);
    format!("{number:0width$}")
}

/// A word that is a number but for a sign, a blank, a letter, or a byte beside the digits.
pub(super) fn disguised(rng: &mut Rng, number: u64) -> String {
    let before = ["+", "-", " ", "\t", "/", ":", "0x", "x", "\u{663}"];
    let after = [" ", "\n", "/", ":", "x", "a", ".0", ",0", "e1", "\u{ff11}"];
    match rng.one_in(2) {
        true => format!("{}{number}", rng.pick(&before)),
        false => format!("{number}{}", rng.pick(&after)),
    }
}

/// A word without a digit.
pub(super) fn no_number(rng: &mut Rng) -> String {
    let words = ["x", "/", ":", "-", "+", " ", "ff", "c", "seed", "\u{ff18}"];
    rng.pick(&words).to_string()
}
