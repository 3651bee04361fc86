//! The whole output of the program `script_counts`.

use super::{number, pair_lines};
use crate::scripts::{count, scripts, Counts};
use crate::sheet::Sheet;

/// A call of the program: two sheets back to back, and the words after the program's name.
#[derive(Clone, PartialEq, Eq, Debug)]
pub struct Call {
    pub input: Vec<u8>,
    pub words: Vec<String>,
}

/// The output of a call, each line with its newline.
pub fn output(call: &Call) -> String {
    output_by(call, count)
}

/// The same with another count.
pub fn output_by(call: &Call, count: impl Fn(&Sheet, &Sheet, u16) -> Result<Counts, u8>) -> String {
    let length = asked(&call.words);
    pair_lines(&call.input, |reference, device| {
        match count(reference, device, length) {
            Ok(counts) => count_lines(scripts(reference.e, length), length, counts),
            Err(number) => format!("scripts refused {number}\n"),
        }
    })
}

/// The length that the words ask for. Whatever is not one word with a number counts as 65,535.
fn asked(words: &[String]) -> u16 {
    match words {
        [word] => number(word).unwrap_or(u16::MAX),
        _ => u16::MAX,
    }
}

/// How many scripts there are, the three counts, and how many scripts end early.
fn count_lines(all: u64, length: u16, counts: Counts) -> String {
    let Counts {
        walked,
        device,
        reference,
    } = counts;
    [
        format!("scripts of {length} events {all}\n"),
        format!("walked {walked}\n"),
        format!("device stops {device}\n"),
        format!("reference stops {reference}\n"),
        format!("ends early {}\n", device + reference),
    ]
    .concat()
}
