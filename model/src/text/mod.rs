//! The whole outputs of the programs.

pub mod bound_pair;
pub mod compare;
pub mod keypad_check;
pub mod live;
pub mod probe_list;
pub mod script_counts;
pub mod show;
pub mod suite;
pub mod walk;

use crate::sheet::{read, Sheet};

/// The most bytes that a program reads of sheets.
pub const MAX_INPUT: usize = 4_096;

/// What is read of an input; later bytes count as absent.
fn cut(input: &[u8]) -> &[u8] {
    &input[..input.len().min(MAX_INPUT)]
}

/// The lines of a program that reads two sheets: a line for each of them, and what `rest` says of
/// the two. A refused sheet ends the text.
fn pair_lines(input: &[u8], rest: impl Fn(&Sheet, &Sheet) -> String) -> String {
    let (first, second) = split(cut(input));
    let reference = match read(first) {
        Ok(sheet) => sheet,
        Err(number) => return format!("reference refused {number}\n"),
    };
    let head = head_line("reference", &reference);
    let device = match read(second) {
        Ok(sheet) => sheet,
        Err(number) => return format!("{head}device refused {number}\n"),
    };
    head + &head_line("device", &device) + &rest(&reference, &device)
}

/// The two sheets. Under 4 bytes, or a length field that leads past the end, all of
/// the input is the first sheet; its refusal then keeps the second from being read.
fn split(input: &[u8]) -> (&[u8], &[u8]) {
    let Some(field) = input.first_chunk::<4>() else {
        return (input, &[]);
    };
    let whole = u64::from(u32::from_be_bytes(*field)) + 4;
    if whole > input.len() as u64 {
        return (input, &[]);
    }
    input.split_at(whole as usize)
}

/// The lines of a program that reads one sheet: its size, what `codes` says of it and what `rest`
/// says of each node, or its refusal with what the number means.
fn sheet_lines(
    input: &[u8],
    codes: impl Fn(&Sheet) -> String,
    rest: impl Fn(&Sheet, u8) -> String,
) -> String {
    match read(cut(input)) {
        Ok(sheet) => {
            let nodes = (0..sheet.n).map(|node| rest(&sheet, node));
            head_line("sheet", &sheet) + &codes(&sheet) + &nodes.collect::<String>()
        }
        Err(number) => sheet_refused(number),
    }
}

/// The line of a refused sheet, with what the number means.
fn sheet_refused(number: u8) -> String {
    format!("sheet refused {number} {}\n", meaning(number))
}

/// A number of one to five digits up to 65,535.
fn number(word: &str) -> Option<u16> {
    value(word, 5).and_then(|value| u16::try_from(value).ok())
}

/// The value of a word of one to `most` digits, few enough for 64 bits.
fn value(word: &str, most: usize) -> Option<u64> {
    let digits = word.bytes().all(|byte| byte.is_ascii_digit());
    if !digits || !(1..=most).contains(&word.len()) {
        return None;
    }
    word.parse().ok()
}

/// The line of an accepted sheet.
fn head_line(who: &str, sheet: &Sheet) -> String {
    format!("{who} {} nodes {} events\n", sheet.n, sheet.e)
}

/// What the refusal of a sheet means.
pub fn meaning(number: u8) -> &'static str {
    match number {
        1 => "too short or its length field is wrong",
        2 => "version is neither 1 nor 2",
        3 => "events or nodes out of range",
        4 => "the bytes end too early or some remain",
        5 => "number of acceptances out of range",
        6 => "a successor is no node",
        7 => "a rule of acceptances is broken",
        8 => "a node cannot be reached",
        18 => "a code is given twice",
        _ => "",
    }
}

/// The events of a set in order, a blank before each.
pub fn events(set: u16) -> String {
    let inside = (0..16).filter(|event| set >> event & 1 == 1);
    inside.map(|event| format!(" {event}")).collect()
}

/// A set: its number, and its events between parentheses.
pub fn set_words(set: u16) -> String {
    format!("{set} ({} )", events(set))
}
