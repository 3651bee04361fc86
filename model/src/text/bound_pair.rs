//! All that the program `bound_pair` writes.

use super::value;
use crate::bound::{first_failing, in_range, sheets};

/// The most bytes of a word; a longer one counts as empty.
pub const MAX_WORD: usize = 64;

/// The line of a last word that asks for nothing.
pub const USAGE: &str = "bound_pair: WORD is reference, device or lines\n";

/// The line of refused counts.
pub const REFUSED: &str = "bound refused 30\n";

/// What is written: on standard output, and on standard error.
#[derive(Clone, PartialEq, Eq, Debug)]
pub struct Written {
    pub printed: Vec<u8>,
    pub said: Vec<u8>,
}

impl Written {
    /// Bytes on standard output alone.
    pub fn printed(bytes: impl Into<Vec<u8>>) -> Written {
        Written {
            printed: bytes.into(),
            said: Vec::new(),
        }
    }

    /// Bytes on standard error alone.
    pub fn said(bytes: impl Into<Vec<u8>>) -> Written {
        Written {
            printed: Vec::new(),
            said: bytes.into(),
        }
    }
}

/// What the last word asks for.
#[derive(Clone, Copy, PartialEq, Eq, Debug)]
pub enum Asked {
    /// The lines.
    Lines,
    /// The bytes of the reference.
    Reference,
    /// The bytes of the device.
    Device,
}

/// What is written for the words after the program's name. Another number of words than three is as
/// three empty ones.
pub fn output(words: &[String]) -> Written {
    match words {
        [p, q, word] => written(heard(p), heard(q), heard(word)),
        _ => written("", "", ""),
    }
}

/// A word as it counts.
pub fn heard(word: &str) -> &str {
    match word.len() <= MAX_WORD {
        true => word,
        false => "",
    }
}

/// What is written for three words.
fn written(p: &str, q: &str, word: &str) -> Written {
    let Some(asked) = asked(word) else {
        return Written::said(USAGE);
    };
    match (count(p), count(q)) {
        (Some(p), Some(q)) => Written::printed(answer(asked, p, q)),
        _ if asked == Asked::Lines => Written::printed(REFUSED),
        _ => Written::said(REFUSED),
    }
}

/// What a last word asks for; most words ask for nothing.
pub fn asked(word: &str) -> Option<Asked> {
    match word {
        "lines" => Some(Asked::Lines),
        "reference" => Some(Asked::Reference),
        "device" => Some(Asked::Device),
        _ => None,
    }
}

/// A number of nodes: one to three digits, 1 to 32.
pub fn count(word: &str) -> Option<u8> {
    let value = value(word, 3)?;
    let count = u8::try_from(value).ok()?;
    in_range(count).then_some(count)
}

/// What is asked for.
fn answer(asked: Asked, p: u8, q: u8) -> Vec<u8> {
    let (reference, device) = sheets(p, q);
    match asked {
        Asked::Lines => lines(p, q, reference.len(), device.len()).into_bytes(),
        Asked::Reference => reference,
        Asked::Device => device,
    }
}

/// The nodes and the bytes of each sheet, and the first failing test.
fn lines(p: u8, q: u8, reference: usize, device: usize) -> String {
    [
        format!("reference {p} nodes {reference} bytes\n"),
        format!("device {q} nodes {device} bytes\n"),
        format!("first failing test {}\n", first_failing(p, q)),
    ]
    .concat()
}
