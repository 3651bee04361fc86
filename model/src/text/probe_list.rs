//! The whole output of the program `probe_list`.

use super::{events, set_words, sheet_lines};
use crate::probes::probes;
use crate::sheet::Sheet;

/// The output for an input of bytes, each line with its newline.
pub fn output(input: &[u8]) -> String {
    let node_lines = |sheet: &Sheet, node| probe_line(sheet, node) + &optional_line(sheet, node);
    sheet_lines(input, |_| String::new(), node_lines)
}

/// The probes of a node, or that it may stop.
fn probe_line(sheet: &Sheet, node: u8) -> String {
    if sheet.row(node).may_stop() {
        return format!("node {node} may stop\n");
    }
    let sets = probes(sheet, node);
    let words: String = sets.iter().map(|&x| format!(" {}", set_words(x))).collect();
    format!("node {node} probes{words}\n")
}

/// The events that a node can do and that stand in none of its acceptances, where there are any.
fn optional_line(sheet: &Sheet, node: u8) -> String {
    match optional(sheet, node) {
        0 => String::new(),
        set => format!("node {node} optional{}\n", events(set)),
    }
}

/// The events that a node can do and that stand in none of its acceptances, as a set.
pub fn optional(sheet: &Sheet, node: u8) -> u16 {
    let row = sheet.row(node);
    let demanded = row.acceptances().iter().fold(0, |all, set| all | set);
    sheet.initials(node) & !demanded
}
