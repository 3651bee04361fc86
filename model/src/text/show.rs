//! The whole output of the program `show`.

use super::{set_words, sheet_lines};
use crate::sheet::{has_first_codes, Row, Sheet, NO_NODE};

/// The output for an input of bytes, each line with its newline.
pub fn output(input: &[u8]) -> String {
    sheet_lines(input, code_lines, node_lines)
}

/// A line for the code of each event, unless the codes are those of version 1.
pub fn code_lines(sheet: &Sheet) -> String {
    if has_first_codes(sheet) {
        return String::new();
    }
    let codes = sheet.used_codes().iter().enumerate();
    codes
        .map(|(event, code)| format!("code {event} {code}\n"))
        .collect()
}

/// The lines of a node: its events with a successor, and its acceptances or that it may stop.
fn node_lines(sheet: &Sheet, node: u8) -> String {
    let row = sheet.row(node);
    let successors = row.succ.iter().take(sheet.e.into()).enumerate();
    let events: String = successors
        .filter(|(_, &next)| next != NO_NODE)
        .map(|(event, next)| format!("event {event} to {next}\n"))
        .collect();
    format!("node {node}\n{events}{}", last_lines(&row))
}

fn last_lines(row: &Row) -> String {
    if row.may_stop() {
        return "may stop\n".to_string();
    }
    let sets = row.acceptances().iter();
    sets.map(|&set| format!("accepts {}\n", set_words(set)))
        .collect()
}
