//! The whole output of the program `live`.

use super::{cut, events, head_line, number, set_words};
use crate::sheet::{read, Sheet};
use crate::tests::{open, step, Answer, Report, Run};

/// A call of the program: the bytes of the reference's file, the words after it, and what is typed.
#[derive(Clone, PartialEq, Eq, Debug)]
pub struct Call {
    pub file: Vec<u8>,
    pub words: Vec<String>,
    pub typed: Vec<u8>,
}

/// The output of a call, each line with its newline.
pub fn output(call: &Call) -> String {
    output_by(call, &open, &step)
}

/// A function that opens a run.
pub type Opens = dyn Fn(&Sheet, u16, u16, bool) -> (Answer, Run);

/// A function that answers a report.
pub type Steps = dyn Fn(&Sheet, &Run, Report) -> (Answer, Run);

/// The same with other openings and steps.
pub fn output_by(call: &Call, open: &Opens, step: &Steps) -> String {
    if !matches!(call.words.len(), 2 | 3) {
        return "test refused 14\n".to_string();
    }
    let sheet = match read(cut(&call.file)) {
        Ok(sheet) => sheet,
        Err(number) => return format!("reference refused {number}\n"),
    };
    let Some((k, h, traces)) = asked(&call.words) else {
        return "test refused 14\n".to_string();
    };
    let (answer, mut run) = open(&sheet, k, h, traces);
    let mut offer = match answer {
        Answer::Going(offer) => offer,
        _ => return "test refused 14\n".to_string(),
    };
    let mut text = first_line(&sheet, k, h, traces) + &offer_line(offer);
    for line in lines(&call.typed) {
        let (answer, after) = step(&sheet, &run, heard(line));
        run = after;
        match answer {
            Answer::Going(next) => offer = next,
            Answer::Denied(number) => text += &refused_line(number),
            ending => return text + &last_line(ending),
        }
        text += &offer_line(offer);
    }
    text + "input ended\n"
}

/// The test, the choice number and whether it is trace-only, from the words.
fn asked(words: &[String]) -> Option<(u16, u16, bool)> {
    let traces = match words.get(2).map(String::as_str) {
        None => false,
        Some("traces") => true,
        Some(_) => return None,
    };
    Some((number(&words[0])?, number(&words[1])?, traces))
}

/// The lines that are typed, each without its newline and without a carriage return before that.
/// What stands after the last newline is no line.
fn lines(typed: &[u8]) -> Vec<&[u8]> {
    let mut lines: Vec<&[u8]> = typed.split(|&byte| byte == b'\n').collect();
    lines.pop();
    let whole = |line: &[u8]| line.strip_suffix(b"\r").map(<[u8]>::len);
    let without = lines
        .into_iter()
        .map(|line| &line[..whole(line).unwrap_or(line.len())]);
    without.collect()
}

/// The report of a line: `event` and one to three digits, or `blocked`. Any other line is heard as an
/// event that no sheet has.
fn heard(line: &[u8]) -> Report {
    if line == b"blocked" {
        return Report::Blocked;
    }
    let event = line
        .strip_prefix(b"event ")
        .and_then(|word| std::str::from_utf8(word).ok())
        .filter(|word| word.len() <= 3 && word.bytes().all(|byte| byte.is_ascii_digit()))
        .and_then(|word| word.parse().ok());
    Report::Event(event.unwrap_or(255))
}

/// The first line of a run: which test, with which choice number, on a reference of which size.
fn first_line(sheet: &Sheet, k: u16, h: u16, traces: bool) -> String {
    let kind = if traces { "trace-only " } else { "" };
    format!(
        "{kind}test {k} choice {h} {}",
        head_line("reference", sheet)
    )
}

fn offer_line(offer: u16) -> String {
    format!("offer{}\n", events(offer))
}

/// The line of a refused report, with what the number means.
fn refused_line(number: u8) -> String {
    let meaning = match number {
        15 => " no event of the sheet, or no report",
        17 => " the event was not offered",
        _ => "",
    };
    format!("report refused {number}{meaning}\n")
}

/// The line of an ending.
fn last_line(ending: Answer) -> String {
    match ending {
        Answer::Stray(event) => format!("run failed stray {event}\n"),
        Answer::Refused(set) => format!("run failed refused {}\n", set_words(set)),
        Answer::Inconclusive => "run inconclusive\n".to_string(),
        Answer::Passed => "run passed\n".to_string(),
        Answer::Going(_) | Answer::Denied(_) => unreachable!("no ending"),
    }
}
