//! The whole output of the program `walk`.

use super::{cut, head_line, sheet_refused, value};
use crate::load::{walk_of, MAX_WALK};
use crate::sheet::read;

/// A call of the program: a sheet, and the words after the program's name.
#[derive(Clone, PartialEq, Eq, Debug)]
pub struct Call {
    pub input: Vec<u8>,
    pub words: Vec<String>,
}

/// The output of a call, each line with its newline. A refused sheet ends the text, whatever the
/// words are.
pub fn output(call: &Call) -> String {
    let sheet = match read(cut(&call.input)) {
        Ok(sheet) => sheet,
        Err(number) => return sheet_refused(number),
    };
    let rest = match asked(&call.words) {
        Ok((seed, wish)) => walk_lines(&walk_of(&sheet, seed, wish), wish),
        Err(number) => format!("walk refused {number}\n"),
    };
    head_line("sheet", &sheet) + &rest
}

/// The seed and the wished length that the words ask for, or the refusal: 27 unless there are two
/// words and the first is a seed; then 28 unless the second is a length.
pub fn asked(words: &[String]) -> Result<(u32, u16), u8> {
    let [first, second] = words else {
        return Err(27);
    };
    let seed = seed_of(first).ok_or(27)?;
    let wish = wish_of(second).ok_or(28)?;
    Ok((seed, wish))
}

/// A seed: one to ten digits, 1 to 4,294,967,295.
fn seed_of(word: &str) -> Option<u32> {
    let value = value(word, 10)?;
    let seed = u32::try_from(value).ok()?;
    (seed != 0).then_some(seed)
}

/// A wished length: one to five digits, up to 4,096.
fn wish_of(word: &str) -> Option<u16> {
    let value = value(word, 5)?;
    let wish = u16::try_from(value).ok()?;
    (wish <= MAX_WALK).then_some(wish)
}

/// How long the walk is and was wished, and its events.
fn walk_lines(events: &[u8], wish: u16) -> String {
    let trace: String = events.iter().map(|event| format!(" {event}")).collect();
    format!("walked {} of {wish}\ntrace{trace}\n", events.len())
}
