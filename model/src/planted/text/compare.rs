//! The text of `compare` with a fault planted.

use super::super::comparisons::{compare_with, CompareFault};
use super::super::faults;
use super::{exchanged, joined, owned};
use crate::comparison::MAX_WORDS;
use crate::sheet::read;
use crate::text::compare::{output, output_by};
use crate::text::MAX_INPUT;

faults! {
    /// One planted fault of the text, or none.
    TextFault {
        /// One byte less is read.
        OneByteLess,
        /// One byte more is read.
        OneByteMore,
        /// The first sheet ends where its length field says, without adding 4.
        SplitWithoutFour,
        /// An empty trace has a blank at its end.
        BlankAfterTrace,
        /// Events stand side by side.
        NoBlanks,
        /// Nodes and events are exchanged in the first lines.
        HeadsExchanged,
        /// The last line has no newline.
        NoLastNewline,
        /// The lines of a violation stand in another order.
        NamedBeforeTrace,
        /// A refused device stands alone.
        DeviceAlone,
        /// Unequal events stand after one line only.
        ElevenAfterOne,
        /// Unequal codes stand after one line only.
        NineteenAfterOne,
        /// Unequal codes are refused as unequal events.
        NineteenIsEleven,
        /// Cleared is one more.
        ClearedOneMore,
        /// The search stops at depth p + q.
        DepthSum,
        /// The search stops at the larger number of nodes.
        DepthLarger,
        /// Acceptances are compared for equality.
        AcceptancesEqual,
        /// The empty acceptance of the reference is taken as "no rule here".
        EmptyIsNoRule,
        /// Every pair after the start is counted as good.
        LaterGood,
        /// The lowest probe that is missed is named.
        ByNumber,
        /// Of equally large probes that are missed the highest is named.
        HigherFirst,
        /// The first of the largest probes that are missed is named.
        LargestFirst,
        /// The acceptance is one that misses the lowest probe that is missed.
        AcceptanceByNumber,
        /// Unequal codes are accepted.
        CodesIgnored,
        /// Codes are compared as sets.
        CodesAsSets,
        /// The code of the last event is not compared.
        LastCodeIgnored,
    }
}

/// The fault of the comparison that a fault of the text comes from; no fault comes from none.
fn comparison_fault(fault: TextFault) -> Option<CompareFault> {
    Some(match fault {
        TextFault::None => CompareFault::None,
        TextFault::DepthSum => CompareFault::DepthSum,
        TextFault::DepthLarger => CompareFault::DepthLarger,
        TextFault::AcceptancesEqual => CompareFault::AcceptancesEqual,
        TextFault::EmptyIsNoRule => CompareFault::EmptyIsNoRule,
        TextFault::LaterGood => CompareFault::LaterGood,
        TextFault::ByNumber => CompareFault::ByNumber,
        TextFault::HigherFirst => CompareFault::HigherFirst,
        TextFault::LargestFirst => CompareFault::LargestFirst,
        TextFault::AcceptanceByNumber => CompareFault::AcceptanceByNumber,
        TextFault::CodesIgnored => CompareFault::CodesIgnored,
        TextFault::CodesAsSets => CompareFault::CodesAsSets,
        TextFault::LastCodeIgnored => CompareFault::LastCodeIgnored,
        _ => return None,
    })
}

/// The output for an input of bytes.
pub fn output_with(fault: TextFault, input: &[u8]) -> String {
    match comparison_fault(fault) {
        Some(other) => output_by(input, |reference, device| {
            let (mut work, mut list) = ([0; MAX_WORDS], [0; 1_023]);
            compare_with(other, reference, device, false, &mut work, &mut list)
        }),
        None => lines_with(fault, input),
    }
}

/// The output with a fault in its lines or in the split of the input.
fn lines_with(fault: TextFault, input: &[u8]) -> String {
    let most = match fault {
        TextFault::OneByteLess => MAX_INPUT - 1,
        TextFault::OneByteMore => MAX_INPUT + 1,
        _ => MAX_INPUT,
    };
    let input = &input[..input.len().min(most)];
    let plain = if input.len() > MAX_INPUT {
        one_more(input)
    } else {
        output(input)
    };
    let lines: Vec<&str> = plain.lines().collect();
    match fault {
        TextFault::SplitWithoutFour => shifted(input).unwrap_or(plain),
        TextFault::BlankAfterTrace => plain.replace("trace\n", "trace \n"),
        TextFault::NoBlanks => {
            let line = |l: &&str| match l.strip_prefix("trace ") {
                Some(events) => format!("trace {}", events.replace(' ', "")),
                None => l.to_string(),
            };
            joined(&lines.iter().map(line).collect::<Vec<_>>())
        }
        TextFault::HeadsExchanged => exchanged(&plain),
        TextFault::NoLastNewline => plain.trim_end_matches('\n').to_string(),
        TextFault::NamedBeforeTrace if lines.len() == 5 => {
            joined(&owned(&[lines[0], lines[1], lines[2], lines[4], lines[3]]))
        }
        TextFault::DeviceAlone if lines.len() == 2 && lines[1].starts_with("device refused") => {
            joined(&owned(&lines[1..]))
        }
        TextFault::ElevenAfterOne if plain.contains("comparison refused 11") => {
            joined(&owned(&[lines[0], lines[2]]))
        }
        TextFault::NineteenAfterOne if plain.contains("comparison refused 19") => {
            joined(&owned(&[lines[0], lines[2]]))
        }
        TextFault::NineteenIsEleven => {
            plain.replace("comparison refused 19", "comparison refused 11")
        }
        TextFault::ClearedOneMore => {
            let line = |l: &&str| match l.rsplit_once("cleared ") {
                Some((front, count)) => {
                    let count: u32 = count.parse().unwrap_or(0);
                    format!("{front}cleared {}", count + 1)
                }
                None => l.to_string(),
            };
            joined(&lines.iter().map(line).collect::<Vec<_>>())
        }
        _ => plain,
    }
}

/// The output where one byte more than allowed is read: the second sheet has that byte.
fn one_more(input: &[u8]) -> String {
    let field = u32::from_be_bytes([input[0], input[1], input[2], input[3]]) as usize + 4;
    let plain = output(input);
    let second = input.get(field..).unwrap_or(&[]);
    match (plain.rsplit_once("device refused "), read(second)) {
        (Some((front, _)), Err(number)) => format!("{front}device refused {number}\n"),
        _ => plain,
    }
}

/// The output where the split comes 4 bytes too early: the first sheet is then refused.
fn shifted(input: &[u8]) -> Option<String> {
    let field = u32::from_be_bytes(*input.first_chunk::<4>()?) as usize;
    (field + 4 <= input.len()).then(|| "reference refused 1\n".to_string())
}
