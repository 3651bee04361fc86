//! The text of `script_counts` with a fault planted.

use super::super::faults;
use super::super::scripts::{count_with, ScriptFault};
use super::{each_line, exchanged, joined, owned, without};
use crate::scripts::Counts;
use crate::text::script_counts::{output, output_by, Call};

faults! {
    /// One planted fault of the text, or none.
    ScriptTextFault {
        /// Nodes and events are exchanged in the first lines.
        HeadsExchanged,
        /// A refused device stands alone.
        DeviceAlone,
        /// Unequal events are refused in the words of `compare`.
        ElevenOfCompare,
        /// Unequal codes are refused as unequal events.
        NineteenIsEleven,
        /// A refused length stands alone.
        TwentyAlone,
        /// Only scripts that the device stops count as ending early.
        EarlyDeviceOnly,
        /// Only scripts that the reference stops count as ending early.
        EarlyReferenceOnly,
        /// Every script counts as ending early.
        EarlyAll,
        /// How many end early is left out.
        NoEarly,
        /// How many scripts there are is left out.
        TotalLeftOut,
        /// The length is left out.
        LengthLeftOut,
        /// The lines of the two stops are exchanged.
        LinesExchanged,
        /// A count of 0 has no digit.
        NothingForZero,
        /// Numbers are printed with 16 bits.
        SixteenBits,
        /// Numbers are printed with 32 bits.
        ThirtyTwoBits,
        /// Numbers are printed with at most nine digits, the last ones.
        NineDigits,
        /// The last line has no newline.
        NoLastNewline,
        /// A word that is no number counts as 0.
        WrongWordIsZero,
        /// A missing word counts as 0.
        MissingWordIsZero,
        /// A second word is not looked at.
        AnySecondWord,
        /// A number with a leading zero counts as none.
        LeadingZeroRefused,
        /// A number of more than five digits is read.
        MoreDigits,
        /// A number above 65,535 loses its high bits.
        WordWraps,
        /// A sign before a number is read.
        SignRead,
        /// Blanks around a number are not looked at.
        BlanksTrimmed,
        /// The reference is asked first.
        ReferenceFirst,
        /// The two stops are exchanged.
        Exchanged,
        /// The last event of the sheets is left out.
        OneEventShort,
        /// Scripts of one event less are counted.
        OneShorter,
        /// Walked is 0 for scripts of no events.
        WalkedAtZero,
        /// 17 is accepted.
        LengthOneMore,
        /// 16 is refused.
        LengthOneLess,
        /// 20 is looked for before 11.
        TwentyFirst,
        /// 20 is looked for before 19.
        TwentyBeforeNineteen,
        /// Unequal codes are accepted.
        CodesIgnored,
        /// Codes are compared as sets.
        CodesAsSets,
        /// The code of the last event is not compared.
        LastCodeIgnored,
    }
}

/// The fault of the count that a fault of the text comes from; no fault comes from none.
fn count_fault(fault: ScriptTextFault) -> Option<ScriptFault> {
    Some(match fault {
        ScriptTextFault::None => ScriptFault::None,
        ScriptTextFault::ReferenceFirst => ScriptFault::ReferenceFirst,
        ScriptTextFault::Exchanged => ScriptFault::Exchanged,
        ScriptTextFault::OneEventShort => ScriptFault::OneEventShort,
        ScriptTextFault::OneShorter => ScriptFault::OneShorter,
        ScriptTextFault::WalkedAtZero => ScriptFault::WalkedAtZero,
        ScriptTextFault::LengthOneMore => ScriptFault::LengthOneMore,
        ScriptTextFault::LengthOneLess => ScriptFault::LengthOneLess,
        ScriptTextFault::TwentyFirst => ScriptFault::TwentyFirst,
        ScriptTextFault::TwentyBeforeNineteen => ScriptFault::TwentyBeforeNineteen,
        ScriptTextFault::CodesIgnored => ScriptFault::CodesIgnored,
        ScriptTextFault::CodesAsSets => ScriptFault::CodesAsSets,
        ScriptTextFault::LastCodeIgnored => ScriptFault::LastCodeIgnored,
        _ => return None,
    })
}

/// The output of a call.
pub fn output_with(fault: ScriptTextFault, call: &Call) -> String {
    match count_fault(fault) {
        Some(other) => output_by(call, |reference, device, length| {
            let answer = count_with(other, reference, device, length);
            let counts = Counts {
                walked: answer.walked,
                device: answer.device,
                reference: answer.reference,
            };
            match answer.refusal {
                0 => Ok(counts),
                number => Err(number),
            }
        }),
        None => lines_with(fault, &output(&heard_with(fault, call))),
    }
}

/// The call as it is heard with a fault in its words.
fn heard_with(fault: ScriptTextFault, call: &Call) -> Call {
    let mut words = call.words.clone();
    match (fault, &mut words[..]) {
        (ScriptTextFault::MissingWordIsZero, []) => words.push("0".to_string()),
        (ScriptTextFault::AnySecondWord, [_, _]) => words.truncate(1),
        (_, [word]) => *word = word_with(fault, word),
        _ => {}
    }
    Call {
        words,
        ..call.clone()
    }
}

/// The word that is heard in place of a word.
fn word_with(fault: ScriptTextFault, word: &str) -> String {
    let digits = word.bytes().all(|byte| byte.is_ascii_digit());
    let number: Option<u64> = word.parse().ok().filter(|_| digits);
    let few = word.len() <= 5;
    match (fault, number) {
        (ScriptTextFault::WrongWordIsZero, None) => "0".to_string(),
        (ScriptTextFault::LeadingZeroRefused, _) if word.len() > 1 && word.starts_with('0') => {
            String::new()
        }
        (ScriptTextFault::MoreDigits, Some(number)) if !few => number.to_string(),
        (ScriptTextFault::WordWraps, Some(number)) if few => (number % 65_536).to_string(),
        (ScriptTextFault::SignRead, _) => word.trim_start_matches(['+', '-']).to_string(),
        (ScriptTextFault::BlanksTrimmed, _) => word.trim().to_string(),
        _ => word.to_string(),
    }
}

/// The output with a fault in its lines.
fn lines_with(fault: ScriptTextFault, plain: &str) -> String {
    let lines: Vec<&str> = plain.lines().collect();
    match fault {
        ScriptTextFault::HeadsExchanged => exchanged(plain),
        ScriptTextFault::DeviceAlone if lines.len() == 2 => joined(&owned(&lines[1..])),
        ScriptTextFault::ElevenOfCompare => {
            plain.replace("scripts refused 11", "comparison refused 11")
        }
        ScriptTextFault::NineteenIsEleven => {
            plain.replace("scripts refused 19", "scripts refused 11")
        }
        ScriptTextFault::TwentyAlone if lines.last() == Some(&"scripts refused 20") => {
            joined(&owned(&lines[lines.len() - 1..]))
        }
        ScriptTextFault::EarlyDeviceOnly => early_is(&lines, "device stops "),
        ScriptTextFault::EarlyReferenceOnly => early_is(&lines, "reference stops "),
        ScriptTextFault::EarlyAll => early_is(&lines, "scripts of "),
        ScriptTextFault::NoEarly => without(plain, |line| line.starts_with("ends early ")),
        ScriptTextFault::TotalLeftOut => {
            each_line(plain, |line| match line.rsplit_once(" events ") {
                Some((front, _)) => format!("{front} events"),
                None => line.to_string(),
            })
        }
        ScriptTextFault::LengthLeftOut => {
            each_line(plain, |line| match line.rsplit_once(" events ") {
                Some((_, total)) => format!("scripts {total}"),
                None => line.to_string(),
            })
        }
        ScriptTextFault::LinesExchanged if lines.len() == 7 => {
            let mut lines = lines;
            lines.swap(4, 5);
            joined(&owned(&lines))
        }
        ScriptTextFault::NothingForZero => plain.replace(" 0\n", " \n"),
        ScriptTextFault::SixteenBits => numbers(plain, |number| number % (1 << 16)),
        ScriptTextFault::ThirtyTwoBits => numbers(plain, |number| number % (1 << 32)),
        ScriptTextFault::NineDigits => numbers(plain, |number| number % 1_000_000_000),
        ScriptTextFault::NoLastNewline => plain.trim_end_matches('\n').to_string(),
        _ => plain.to_string(),
    }
}

/// A text whose last line has the number at the end of the line that begins with some words.
fn early_is(lines: &[&str], words: &str) -> String {
    let line = lines.iter().find(|line| line.starts_with(words));
    let number = line.and_then(|line| line.rsplit(' ').next()).unwrap_or("");
    let text = |line: &&str| match line.starts_with("ends early ") {
        true => format!("ends early {number}"),
        false => line.to_string(),
    };
    joined(&lines.iter().map(text).collect::<Vec<_>>())
}

/// A text with another number in place of each at the end of a line.
fn numbers(plain: &str, other: impl Fn(u64) -> u64) -> String {
    each_line(plain, |line| match line.rsplit_once(' ') {
        Some((front, last)) => match last.parse() {
            Ok(number) => format!("{front} {}", other(number)),
            Err(_) => line.to_string(),
        },
        None => line.to_string(),
    })
}
