//! Kept sheets with any content.

use super::codes::random_codes;
use super::damage::{unreached, with_code_twice, wrong_sets, wrong_successor};
use super::raw::{random_nodes, random_raw};
use super::Rng;
use crate::sheet::{Row, Sheet, MAX_EVENTS, MAX_NODES, MAX_SETS, NO_NODE};

/// The refusals that kept sheets are aimed at.
pub const AIMS_KEPT: [u8; 6] = [3, 18, 5, 6, 7, 8];

/// A kept sheet that is refused with the number `aim`: a good one with one place
/// changed, unused places included.
pub fn kept(rng: &mut Rng, aim: u8) -> Sheet {
    let least = if aim == 18 { 2 } else { 1 };
    let e = rng.range(least, MAX_EVENTS);
    let n = random_nodes(rng);
    let raw = random_raw(rng, e, n);
    let mut sheet = raw.keep();
    match aim {
        3 => {
            if rng.one_in(2) {
                sheet.e = rng.pick(&[0, 13, 14, 255]);
            } else {
                sheet.n = rng.pick(&[0, 33, 34, 255]);
            }
        }
        18 => sheet = with_code_twice(rng, raw).keep(),
        5 => sheet.rows[rng.below(n)].c = rng.pick(&[0, 17, 18, 255]),
        6 => sheet = wrong_successor(rng, raw).keep(),
        7 if rng.one_in(3) => sheet = wrong_sets(rng, raw).keep(),
        7 => wrong_unused(rng, &mut sheet),
        _ => sheet = unreached(rng).keep(),
    }
    sheet
}

/// 7: an unused place that holds something else. If the way tried has no unused place
/// (all events, all sets or all nodes in use), another is tried; a sheet that has no
/// unused place at all gets a set out of its order instead.
fn wrong_unused(rng: &mut Rng, sheet: &mut Sheet) {
    let (e, n) = (sheet.e as usize, sheet.n as usize);
    for _ in 0..64 {
        let used = rng.below(n);
        let c = sheet.rows[used].c as usize;
        match rng.below(6) {
            0 if e < MAX_EVENTS => {
                let place = rng.range(e, MAX_EVENTS - 1);
                sheet.rows[used].succ[place] = rng.pick(&[0, n as u8, 40, 254]);
            }
            1 if c < MAX_SETS => {
                let place = rng.range(c, MAX_SETS - 1);
                sheet.rows[used].sets[place] = rng.pick(&[1, 2, 0x8000, 0xFFFF]);
            }
            2 if n < MAX_NODES => {
                let row = &mut sheet.rows[rng.range(n, MAX_NODES - 1)];
                row.succ[rng.below(MAX_EVENTS)] = rng.pick(&[0, n as u8, 40, 254]);
            }
            3 if n < MAX_NODES => {
                let row = &mut sheet.rows[rng.range(n, MAX_NODES - 1)];
                row.sets[rng.below(MAX_SETS)] = rng.pick(&[1, 2, 0x8000, 0xFFFF]);
            }
            4 if n < MAX_NODES => {
                sheet.rows[rng.range(n, MAX_NODES - 1)].c = rng.pick(&[1, 16, 17, 255]);
            }
            5 if e < MAX_EVENTS => {
                let place = rng.range(e, MAX_EVENTS - 1);
                sheet.codes[place] = rng.pick(&[1, place as u16 + 1, sheet.codes[0], 0x100]);
                if sheet.codes[place] == 0 {
                    continue;
                }
            }
            _ => continue,
        }
        return;
    }
    sheet.rows[0].sets[0] = 0xF000;
}

/// A kept sheet that is refused, with up to three places changed once more, so that the
/// order of the checks counts: any number can come.
pub fn kept_twice(rng: &mut Rng) -> Sheet {
    let aim = rng.pick(&AIMS_KEPT);
    let mut sheet = kept(rng, aim);
    for _ in 0..rng.range(1, 3) {
        let n = sheet.n;
        let row = &mut sheet.rows[rng.below(MAX_NODES)];
        match rng.below(10) {
            0 => sheet.e = rng.pick(&[0, 1, 2, 11, 12, 13, 255]),
            1 => sheet.n = rng.pick(&[0, 1, 2, 31, 32, 33, 255]),
            2 => row.c = rng.pick(&[0, 1, 15, 16, 17, 255]),
            3 | 4 => row.succ[rng.below(MAX_EVENTS)] = rng.pick(&[0, 1, n, 31, 32, 254, NO_NODE]),
            5 => row.sets[rng.below(MAX_SETS)] = rng.pick(&[0, 1, 2, 3, 0x800, 0x1000, 0xFFFF]),
            6 => row.sets.swap(0, rng.below(MAX_SETS)),
            7 => *row = rng.pick(&[Row::ZERO, Row::UNUSED]),
            _ => {
                let place = rng.below(MAX_EVENTS);
                sheet.codes[place] = rng.pick(&[0, 1, 2, sheet.codes[0], 0xFFFF]);
            }
        }
    }
    sheet
}

/// A kept sheet of noise. Half of the time E, N and the counts are in range, so that
/// later checks are reached; then the other places are mostly plain values.
pub fn kept_noise(rng: &mut Rng) -> Sheet {
    let mut sheet = Sheet::ZERO;
    let plain = rng.one_in(2);
    for row in sheet.rows.iter_mut() {
        *row = noise_row(rng, plain);
    }
    sheet.e = rng.byte();
    sheet.n = rng.byte();
    if plain {
        sheet.e = rng.range(1, MAX_EVENTS) as u8;
        sheet.n = rng.range(1, MAX_NODES) as u8;
    }
    sheet.codes = std::array::from_fn(|_| rng.word());
    if plain && !rng.one_in(8) {
        let codes = random_codes(rng, sheet.e as usize).1;
        sheet = sheet.with_codes(&codes);
    }
    if plain && rng.one_in(2) {
        let n = sheet.n as usize;
        sheet.rows[n..].fill(Row::UNUSED);
    }
    sheet
}

fn noise_row(rng: &mut Rng, plain: bool) -> Row {
    let mut row = Row::ZERO;
    for place in row.succ.iter_mut() {
        *place = if plain && !rng.one_in(40) {
            NO_NODE
        } else {
            rng.byte()
        };
    }
    for place in row.sets.iter_mut() {
        *place = if plain && !rng.one_in(40) {
            0
        } else {
            rng.word()
        };
    }
    row.c = if plain && !rng.one_in(40) {
        1
    } else {
        rng.byte()
    };
    row
}
