//! The text of `probe_list` with a fault planted.

use super::super::faults;
use super::super::probes::{found_with, ProbeFault};
use super::{each_line, exchanged, without, without_events, without_numbers};
use crate::sheet::{read, Sheet};
use crate::text::probe_list::{optional, output};
use crate::text::show::code_lines;
use crate::text::{events, meaning, set_words, MAX_INPUT};

faults! {
    /// One planted fault of the text, or none.
    ProbeTextFault {
        /// Nodes and events are exchanged in the first line.
        HeadExchanged,
        /// A refusal does not say what it means.
        NoMeaning,
        /// Every hitting set is listed.
        EveryHittingSet,
        /// The list stands the other way round.
        Backwards,
        /// The list ascends by number.
        ByNumber,
        /// Of equally many events the higher number stands first.
        HigherFirst,
        /// The probes with most events stand first.
        LargestFirst,
        /// The empty acceptance is taken as "no rule here": the node has the probe 0.
        EmptyIsNoRule,
        /// A node that may stop has an empty list.
        StopIsEmptyList,
        /// Sets have no number.
        NoNumbers,
        /// Sets have no events.
        NoEvents,
        /// The last node is left out.
        LastNodeLeftOut,
        /// No event is printed as optional.
        NoOptional,
        /// The optional events of a node that may stop are not printed.
        StopWithoutOptional,
        /// The events of the acceptances are printed as optional.
        OptionalIsDemanded,
        /// Events that stand in some but not in all acceptances are printed as optional too.
        OptionalInSome,
        /// Events that the node cannot do are printed as optional too.
        OptionalOutside,
        /// Only the first acceptance is looked at.
        OptionalByFirst,
        /// The last acceptance is not looked at.
        OptionalWithoutLast,
        /// The optional events are printed as a set.
        OptionalAsSet,
        /// A line of optional events is printed where there are none.
        OptionalEmpty,
        /// The line of optional events stands first.
        OptionalFirst,
        /// The codes are shown as by `show`.
        CodesShown,
        /// Version 2 is refused.
        VersionTwoRefused,
        /// The last line has no newline.
        NoLastNewline,
    }
}

/// The output for an input of bytes.
pub fn output_with(fault: ProbeTextFault, input: &[u8]) -> String {
    let plain = output(input);
    let Ok(sheet) = read(&input[..input.len().min(MAX_INPUT)]) else {
        return match fault {
            ProbeTextFault::NoMeaning => {
                let words: Vec<&str> = plain.split(' ').take(3).collect();
                words.join(" ") + "\n"
            }
            ProbeTextFault::NoLastNewline => plain.trim_end_matches('\n').to_string(),
            _ => plain,
        };
    };
    match fault {
        ProbeTextFault::CodesShown => match plain.split_once('\n') {
            Some((head, rest)) => format!("{head}\n{}{rest}", code_lines(&sheet)),
            None => plain,
        },
        ProbeTextFault::VersionTwoRefused if input[4] == 2 => {
            format!("sheet refused 2 {}\n", meaning(2))
        }
        ProbeTextFault::HeadExchanged => exchanged(&plain),
        ProbeTextFault::NoNumbers => without_numbers(&plain),
        ProbeTextFault::NoEvents => without_events(&plain),
        ProbeTextFault::NoOptional => without(&plain, |line| line.contains(" optional")),
        ProbeTextFault::StopIsEmptyList => each_line(&plain, |line| {
            line.strip_suffix(" may stop")
                .map_or(line.to_string(), |front| format!("{front} probes"))
        }),
        ProbeTextFault::NoLastNewline => plain.trim_end_matches('\n').to_string(),
        ProbeTextFault::NoMeaning => plain,
        _ => built(fault, &sheet),
    }
}

/// The text of an accepted sheet, made anew.
fn built(fault: ProbeTextFault, sheet: &Sheet) -> String {
    let less = u8::from(fault == ProbeTextFault::LastNodeLeftOut);
    let mut text = format!("sheet {} nodes {} events\n", sheet.n, sheet.e);
    for node in 0..sheet.n - less {
        let (first, second) = (
            probe_line(fault, sheet, node),
            optional_line(fault, sheet, node),
        );
        text += &match fault {
            ProbeTextFault::OptionalFirst => second + &first,
            _ => first + &second,
        };
    }
    text
}

fn probe_line(fault: ProbeTextFault, sheet: &Sheet, node: u8) -> String {
    let listed = match fault {
        ProbeTextFault::EveryHittingSet => ProbeFault::EveryHittingSet,
        ProbeTextFault::Backwards => ProbeFault::Backwards,
        ProbeTextFault::ByNumber => ProbeFault::ByNumber,
        ProbeTextFault::HigherFirst => ProbeFault::HigherFirst,
        ProbeTextFault::LargestFirst => ProbeFault::LargestFirst,
        ProbeTextFault::EmptyIsNoRule => ProbeFault::EmptyIsNoRule,
        _ => ProbeFault::None,
    };
    let sets = found_with(listed, sheet, node);
    if sets.is_empty() {
        return format!("node {node} may stop\n");
    }
    let words: String = sets.iter().map(|&x| format!(" {}", set_words(x))).collect();
    format!("node {node} probes{words}\n")
}

fn optional_line(fault: ProbeTextFault, sheet: &Sheet, node: u8) -> String {
    let set = optional_with(fault, sheet, node);
    if set == 0 && fault != ProbeTextFault::OptionalEmpty {
        return String::new();
    }
    let words = match fault {
        ProbeTextFault::OptionalAsSet => format!(" {}", set_words(set)),
        _ => events(set),
    };
    format!("node {node} optional{words}\n")
}

/// The events that are printed as optional.
fn optional_with(fault: ProbeTextFault, sheet: &Sheet, node: u8) -> u16 {
    let row = sheet.row(node);
    let sets = row.acceptances();
    let (initials, union) = (
        sheet.initials(node),
        sets.iter().fold(0, |all, set| all | set),
    );
    match fault {
        ProbeTextFault::StopWithoutOptional if row.may_stop() => 0,
        ProbeTextFault::OptionalIsDemanded => union,
        ProbeTextFault::OptionalInSome => {
            initials & !sets.iter().fold(0xFFFF, |all, set| all & set)
        }
        ProbeTextFault::OptionalOutside => sheet.alphabet() & !union,
        ProbeTextFault::OptionalByFirst => initials & !sets[0],
        ProbeTextFault::OptionalWithoutLast => {
            let front = &sets[..sets.len() - 1];
            initials & !front.iter().fold(0, |all, set| all | set)
        }
        _ => optional(sheet, node),
    }
}
