//! Random codes of the events of a sheet, other codes than those of a sheet, and the bytes of a
//! sheet in one of its versions.

use super::Rng;
use crate::sheet::{encode, first_codes, has_first_codes, Sheet};

/// A version and the codes that a sheet of `e` events has in it: half of the time version 1. In
/// version 2 they are those of version 1, in order or not, near ones, ones with equal low bytes,
/// or any; 0 is among them at times.
pub fn random_codes(rng: &mut Rng, e: usize) -> (u8, Vec<u16>) {
    let mut codes = first_codes(e as u8);
    if rng.one_in(2) {
        return (1, codes);
    }
    match rng.below(5) {
        0 => {}
        1 => rng.shuffle(&mut codes),
        2 => codes = drawn(rng, e, |rng| rng.below(20) as u16),
        3 => {
            let low = rng.byte();
            codes = drawn(rng, e, |rng| u16::from_be_bytes([rng.below(20) as u8, low]));
        }
        _ => codes = drawn(rng, e, any_code),
    }
    (2, codes)
}

/// So many codes, all different.
fn drawn(rng: &mut Rng, e: usize, draw: impl Fn(&mut Rng) -> u16) -> Vec<u16> {
    let mut codes = Vec::new();
    while codes.len() < e {
        let code = draw(rng);
        if !codes.contains(&code) {
            codes.push(code);
        }
    }
    codes
}

fn any_code(rng: &mut Rng) -> u16 {
    match rng.below(8) {
        0 => rng.pick(&[0, 1, 255, 256, 32_768, 65_535]),
        _ => rng.word(),
    }
}

/// The same sheet with other codes, all different: one of them, at times the last, two of them
/// exchanged, the same ones in another order, or any.
pub fn recoded(rng: &mut Rng, sheet: &Sheet) -> Sheet {
    let mut codes = sheet.used_codes().to_vec();
    let e = codes.len();
    match rng.below(6) {
        0 => codes[e - 1] = another(rng, &codes, e - 1),
        1 | 2 => {
            let event = rng.below(e);
            codes[event] = another(rng, &codes, event);
        }
        3 if e > 1 => {
            let (one, other) = two_places(rng, e);
            codes.swap(one, other);
        }
        4 if e > 1 => {
            while codes == sheet.used_codes() {
                rng.shuffle(&mut codes);
            }
        }
        _ => {
            while codes == sheet.used_codes() {
                codes = random_codes(rng, e).1;
            }
        }
    }
    sheet.with_codes(&codes)
}

/// A code that no event has: one that differs from an event's in one bit, the next one, or any.
fn another(rng: &mut Rng, codes: &[u16], event: usize) -> u16 {
    loop {
        let code = match rng.below(4) {
            0 => codes[event].wrapping_add(1),
            1 => any_code(rng),
            _ => codes[event] ^ 1 << rng.below(16),
        };
        if !codes.contains(&code) {
            return code;
        }
    }
}

/// Two different places of `count`, which is 2 or more.
pub(super) fn two_places(rng: &mut Rng, count: usize) -> (usize, usize) {
    let one = rng.below(count);
    (one, (one + rng.range(1, count - 1)) % count)
}

/// The bytes of an accepted sheet, mostly in version 1 if it has the codes of that version.
pub fn spelled(rng: &mut Rng, sheet: &Sheet) -> Vec<u8> {
    let first = has_first_codes(sheet) && !rng.one_in(4);
    encode(if first { 1 } else { 2 }, sheet)
}
