//! The whole output of the program `keypad_check`.

use super::{cut, head_line, number, sheet_refused, split};
use crate::keypad::{check, find, Bad, Checked, Looked, RULE_BYTES};
use crate::sheet::{read, Sheet};

/// A call of the program: a sheet and a rule table back to back, and the words after the program's
/// name.
#[derive(Clone, PartialEq, Eq, Debug)]
pub struct Call {
    pub input: Vec<u8>,
    pub words: Vec<String>,
}

/// What the words of a call ask for.
#[derive(Clone, Copy, PartialEq, Eq, Debug)]
pub enum Asked {
    /// The check alone.
    Table,
    /// The check, and the event of a code.
    Code(u8),
    /// They are none that the program takes.
    Wrong,
}

/// A function that checks a table.
pub type Checks = dyn Fn(&Sheet, &[u8]) -> Result<Checked, u8>;

/// A function that looks a code up.
pub type Finds = dyn Fn(&Sheet, &[u8], u8) -> Result<Looked, u8>;

/// The output of a call, each line with its newline: nothing if its words are wrong.
pub fn output(call: &Call) -> String {
    output_by(call, &check, &find)
}

/// The same with another check and another lookup.
pub fn output_by(call: &Call, check: &Checks, find: &Finds) -> String {
    lines_by(cut(&call.input), asked(&call.words), check, find)
}

/// The same of what was read of the input, and of what is asked.
pub fn lines_by(input: &[u8], asked: Asked, check: &Checks, find: &Finds) -> String {
    if asked == Asked::Wrong {
        return String::new();
    }
    let (first, table) = split(input);
    let sheet = match read(first) {
        Ok(sheet) => sheet,
        Err(number) => return sheet_refused(number),
    };
    let head = head_line("sheet", &sheet);
    let answer = match check(&sheet, table) {
        Ok(answer) => answer,
        Err(number) => return format!("{head}table refused {number}\n"),
    };
    let looked = match asked {
        Asked::Code(code) => code_line(code, find(&sheet, table, code)),
        _ => String::new(),
    };
    let rules = table.len() / RULE_BYTES;
    format!("{head}table {rules} rules\n{}{looked}", answer_line(answer))
}

/// What the words ask for: no word the check alone, one word with a number up to 255 a code.
pub fn asked(words: &[String]) -> Asked {
    let code = match words {
        [] => return Asked::Table,
        [word] => number(word).and_then(|code| u8::try_from(code).ok()),
        _ => None,
    };
    code.map_or(Asked::Wrong, Asked::Code)
}

/// The line of the answer on a table.
fn answer_line(answer: Checked) -> String {
    match answer {
        Checked::Good => "good\n".to_string(),
        Checked::Bad(Bad::Gap { code }) => format!("gap {code}\n"),
        Checked::Bad(Bad::Overlap {
            code,
            first,
            second,
        }) => format!("overlap {code} by {first} and {second}\n"),
    }
}

/// The line of a code, which only a good table has.
fn code_line(code: u8, answer: Result<Looked, u8>) -> String {
    match answer {
        Ok(Looked::Event(event)) => format!("code {code} event {event}\n"),
        Ok(Looked::Bad(_)) | Err(_) => String::new(),
    }
}
