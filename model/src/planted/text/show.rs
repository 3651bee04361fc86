//! The text of `show` with a fault planted.

use super::super::faults;
use super::{each_line, exchanged, without, without_events, without_numbers};
use crate::sheet::{has_first_codes, read};
use crate::text::show::output;
use crate::text::{meaning, MAX_INPUT};

faults! {
    /// One planted fault of the text, or none.
    ShowFault {
        /// One byte less is read.
        OneByteLess,
        /// One byte more is read.
        OneByteMore,
        /// Nodes and events are exchanged in the first line.
        HeadExchanged,
        /// A refusal does not say what it means.
        NoMeaning,
        /// A refusal has the meaning of the next one.
        NextMeaning,
        /// 2 and 4 have the meanings that they had of version 1 alone.
        OldMeanings,
        /// Codes have lines always.
        CodesAlways,
        /// Codes have lines only if the first event's is not 1.
        CodesByFirst,
        /// Codes never have lines.
        CodesNever,
        /// Codes have lines only where they are not those of version 1.
        OtherCodesOnly,
        /// All twelve places of codes have lines.
        CodesOfAllPlaces,
        /// The code of the last event has no line.
        LastCodeLeftOut,
        /// In the lines of codes events are numbered from 1.
        CodesFromOne,
        /// The lines of codes stand after those of the nodes.
        CodesLast,
        /// Nodes are numbered from 1.
        NodesFromOne,
        /// An event that leads back to its node has no line.
        LoopLeftOut,
        /// Event 0 has no line.
        FirstEventLeftOut,
        /// An event without a successor has a line too.
        NoneShown,
        /// Of a number of two digits the last is printed.
        LastDigit,
        /// Sets have no number.
        NoNumbers,
        /// Sets have no events.
        NoEvents,
        /// The last acceptance of a node is left out, where there are two or more.
        LastLeftOut,
        /// A node that may stop is shown as one that accepts the empty set.
        StopIsEmptySet,
        /// That a node may stop is not said.
        StopLeftOut,
        /// The last node is left out.
        LastNodeLeftOut,
        /// The last line has no newline.
        NoLastNewline,
    }
}

/// The output for an input of bytes.
pub fn output_with(fault: ShowFault, input: &[u8]) -> String {
    if matches!(fault, ShowFault::OneByteLess | ShowFault::OneByteMore) {
        return read_with(fault, input);
    }
    let plain = output(input);
    let lines: Vec<&str> = plain.lines().collect();
    match fault {
        ShowFault::HeadExchanged => exchanged(&plain),
        ShowFault::NoMeaning => other_meaning(&plain, |_| String::new()),
        ShowFault::NextMeaning => {
            other_meaning(&plain, |number| format!(" {}", meaning(number % 8 + 1)))
        }
        ShowFault::OldMeanings => plain
            .replace("version is neither 1 nor 2", "version is not 1")
            .replace("the bytes end too early", "the bytes end inside a node"),
        ShowFault::CodesAlways
        | ShowFault::CodesByFirst
        | ShowFault::CodesNever
        | ShowFault::OtherCodesOnly
        | ShowFault::CodesOfAllPlaces
        | ShowFault::LastCodeLeftOut
        | ShowFault::CodesFromOne
        | ShowFault::CodesLast => coded(fault, input, &plain),
        ShowFault::NodesFromOne => each_line(&plain, |line| match line.strip_prefix("node ") {
            Some(node) => format!("node {}", node.parse::<usize>().unwrap_or(0) + 1),
            None => line.to_string(),
        }),
        ShowFault::LoopLeftOut => loops_left_out(&lines),
        ShowFault::FirstEventLeftOut => without(&plain, |line| line.starts_with("event 0 ")),
        ShowFault::NoneShown => none_shown(input, &plain),
        ShowFault::LastDigit => each_line(&plain, |line| match line.strip_prefix("event 1") {
            Some(rest) if !rest.starts_with(' ') => format!("event {rest}"),
            _ => line.to_string(),
        }),
        ShowFault::NoNumbers => without_numbers(&plain),
        ShowFault::NoEvents => without_events(&plain),
        ShowFault::LastLeftOut => last_left_out(&lines),
        ShowFault::StopIsEmptySet => plain.replace("may stop", "accepts 0 ( )"),
        ShowFault::StopLeftOut => without(&plain, |line| line == "may stop"),
        ShowFault::LastNodeLeftOut => match plain.rfind("node ") {
            Some(place) => plain[..place].to_string(),
            None => plain,
        },
        ShowFault::NoLastNewline => plain.trim_end_matches('\n').to_string(),
        _ => plain,
    }
}

/// The output where another number of bytes is read.
fn read_with(fault: ShowFault, input: &[u8]) -> String {
    let most = match fault {
        ShowFault::OneByteLess => MAX_INPUT - 1,
        _ => MAX_INPUT + 1,
    };
    match read(&input[..input.len().min(most)]) {
        Err(number) => format!("sheet refused {number} {}\n", meaning(number)),
        Ok(_) => output(input),
    }
}

/// The text of a refused sheet with another meaning of its number, and what it was before.
fn other_meaning(plain: &str, other: impl Fn(u8) -> String) -> String {
    let Some(rest) = plain.strip_prefix("sheet refused ") else {
        return plain.to_string();
    };
    let number = rest.split(' ').next().and_then(|word| word.parse().ok());
    let number: u8 = number.unwrap_or(0);
    format!("sheet refused {number}{}\n", other(number))
}

/// The text of an accepted sheet with other lines of codes.
fn coded(fault: ShowFault, input: &[u8], plain: &str) -> String {
    let Ok(sheet) = read(&input[..input.len().min(MAX_INPUT)]) else {
        return plain.to_string();
    };
    let shown = match fault {
        ShowFault::CodesAlways => true,
        ShowFault::CodesByFirst => sheet.codes[0] != 1,
        ShowFault::CodesNever => false,
        _ => !has_first_codes(&sheet),
    };
    let places = match fault {
        ShowFault::CodesOfAllPlaces => sheet.codes.len(),
        ShowFault::LastCodeLeftOut => usize::from(sheet.e) - 1,
        _ => usize::from(sheet.e),
    };
    let first = usize::from(fault == ShowFault::CodesFromOne);
    let mut codes = String::new();
    for (event, code) in sheet.codes.iter().enumerate().take(places) {
        let known = fault == ShowFault::OtherCodesOnly && usize::from(*code) == event + 1;
        if shown && !known {
            codes += &format!("code {} {code}\n", event + first);
        }
    }
    let bare = without(plain, |line| line.starts_with("code "));
    let (head, rest) = bare.split_once('\n').unwrap_or((&bare, ""));
    match fault {
        ShowFault::CodesLast => bare + &codes,
        _ => format!("{head}\n{codes}{rest}"),
    }
}

fn loops_left_out(lines: &[&str]) -> String {
    let mut node = "";
    let mut text = String::new();
    for line in lines {
        node = line.strip_prefix("node ").unwrap_or(node);
        let words: Vec<&str> = line.split(' ').collect();
        if !matches!(words[..], ["event", _, "to", next] if next == node) {
            text += &format!("{line}\n");
        }
    }
    text
}

/// Before a node's first line of acceptances stand lines of the events without a successor.
fn none_shown(input: &[u8], plain: &str) -> String {
    let Ok(sheet) = read(&input[..input.len().min(MAX_INPUT)]) else {
        return plain.to_string();
    };
    let mut text = String::new();
    for line in plain.lines() {
        text += &format!("{line}\n");
        if let Some(node) = line.strip_prefix("node ") {
            let row = sheet.row(node.parse().unwrap_or(0));
            for event in (0..sheet.e).filter(|&event| row.succ[usize::from(event)] == 255) {
                text += &format!("event {event} to 255\n");
            }
        }
    }
    text
}

fn last_left_out(lines: &[&str]) -> String {
    let accepts = |place: usize| {
        let line = lines.get(place).copied().unwrap_or("");
        line.starts_with("accepts ")
    };
    let last = |place: usize| place > 0 && accepts(place - 1) && !accepts(place + 1);
    let kept = (0..lines.len()).filter(|&place| !(accepts(place) && last(place)));
    kept.map(|place| format!("{}\n", lines[place])).collect()
}
