//! Random lengths of scripts, and calls of the program that counts them.

use super::codes::{recoded, spelled};
use super::damage::{damaged, AIMS_READ};
use super::input::{program_input, wrong_word};
use super::pairs::{full_pair, small_pair};
use super::raw::random_sheet;
use super::Rng;
use crate::scripts::MAX_SCRIPT;
use crate::sheet::Sheet;
use crate::text::script_counts::Call;

/// A length of scripts: mostly 0 to 16, at times one that is refused.
pub fn script_length(rng: &mut Rng) -> u16 {
    match rng.below(8) {
        0 => too_long(rng),
        1 => MAX_SCRIPT,
        _ => rng.range(0, MAX_SCRIPT.into()) as u16,
    }
}

/// A length above 16: the next one, one whose low byte is no more than 16, or any.
fn too_long(rng: &mut Rng) -> u16 {
    match rng.below(4) {
        0 => MAX_SCRIPT + 1,
        1 => 256 * rng.range(1, 255) as u16 + rng.below(17) as u16,
        2 => rng.pick(&[18, 32, 255, 1_023, 32_768, 65_535]),
        _ => rng.word().max(MAX_SCRIPT + 1),
    }
}

/// A call of `script_counts`: sheets that are small or lead far, at times with other events or
/// codes, each refusal of a sheet in turn as the reference's and as the device's, a few bytes, or
/// any other, and a word that is mostly right.
pub fn script_call(rng: &mut Rng, round: u64) -> Call {
    let aim = AIMS_READ[(round / 8) as usize % AIMS_READ.len()];
    let words = script_words(rng);
    let (reference, device) = match round % 8 {
        0 | 2 => full_pair(rng),
        3 | 4 => small_pair(rng),
        1 => {
            let input = (0..rng.below(8)).map(|_| rng.byte()).collect();
            return Call { input, words };
        }
        _ => {
            let input = program_input(rng);
            return Call { input, words };
        }
    };
    let (mut first, mut second) = (spelled(rng, &reference), spelled(rng, &device));
    match round % 8 {
        2 => first = damaged(rng, aim),
        3 => second = damaged(rng, aim),
        4 if rng.one_in(4) => second = spelled_other(rng, &device),
        _ => {}
    }
    let input = [first, second].concat();
    Call { input, words }
}

/// The bytes of a sheet with other codes than a device's, or of any sheet.
fn spelled_other(rng: &mut Rng, device: &Sheet) -> Vec<u8> {
    let other = match rng.one_in(2) {
        true => recoded(rng, device),
        false => random_sheet(rng),
    };
    spelled(rng, &other)
}

/// The words of a call: a length, at times with zeros before it, or something else.
fn script_words(rng: &mut Rng) -> Vec<String> {
    let length = script_length(rng);
    match rng.below(16) {
        0 => Vec::new(),
        1 => vec![
            length.to_string(),
            rng.pick(&["", "0", "3", "traces"]).to_string(),
        ],
        2 => vec![wrong_word(rng)],
        3 => vec![disguised(rng)],
        4 => vec![(65_536 + rng.below(17)).to_string()],
        5 | 6 => vec![format!("{length:05}")],
        _ => vec![length.to_string()],
    }
}

/// A word that is a length of 0 to 16 but for a sign, a blank, a letter or a sixth digit.
fn disguised(rng: &mut Rng) -> String {
    let length = rng.range(0, MAX_SCRIPT.into());
    match rng.below(6) {
        0 => format!("+{length}"),
        1 => format!("-{length}"),
        2 => format!(" {length}"),
        3 => format!("{length} "),
        4 => format!("{length}x"),
        _ => format!("{length:06}"),
    }
}
