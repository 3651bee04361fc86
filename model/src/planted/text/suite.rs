//! The text of `suite` with a fault planted.

use super::super::faults;
use super::super::suites::{suite_with, SuiteFault};
use super::{each_line, exchanged, joined, owned, without};
use crate::numbers::PASSES;
use crate::text::suite::{output, output_by};
use crate::verdict::Verdict;

faults! {
    /// One planted fault of the text, or none.
    SuiteTextFault {
        /// Nodes and events are exchanged in the first lines.
        HeadsExchanged,
        /// A refused device stands alone.
        DeviceAlone,
        /// Unequal events are refused in the words of `compare`.
        ElevenOfCompare,
        /// Unequal codes are refused in the words of `compare`.
        NineteenOfCompare,
        /// Unequal codes are refused as unequal events.
        NineteenIsEleven,
        /// Tests are numbered from 1.
        TestsFromOne,
        /// Only tests that fail have a line.
        FailedLinesOnly,
        /// After the first test that fails no other is printed.
        StopsAtFailure,
        /// One more is counted as failed.
        FailedOneMore,
        /// Whatever happened, the last line says that all pass.
        AllPassAlways,
        /// The last line does not say how many were run.
        RunLeftOut,
        /// The last line is missing.
        NoLastLine,
        /// The last line has no newline.
        NoLastNewline,
        /// The last test is left out.
        OneShort,
        /// Tests from p + q on pass.
        DepthSum,
        /// Tests from the larger number of nodes on pass.
        DepthLarger,
        /// Only the initials are offered below depth k.
        InitialsBelow,
        /// Acceptances are compared for equality.
        AcceptancesEqual,
        /// The empty acceptance of the reference is taken as "no rule here".
        EmptyIsNoRule,
        /// After a test that fails all fail.
        Nested,
        /// Unequal codes are accepted.
        CodesIgnored,
        /// Codes are compared as sets.
        CodesAsSets,
        /// The code of the last event is not compared.
        LastCodeIgnored,
    }
}

/// The fault of the verdicts that a fault of the text comes from; no fault comes from none.
fn verdict_fault(fault: SuiteTextFault) -> Option<SuiteFault> {
    Some(match fault {
        SuiteTextFault::None => SuiteFault::None,
        SuiteTextFault::OneShort => SuiteFault::OneShort,
        SuiteTextFault::DepthSum => SuiteFault::DepthSum,
        SuiteTextFault::DepthLarger => SuiteFault::DepthLarger,
        SuiteTextFault::InitialsBelow => SuiteFault::InitialsBelow,
        SuiteTextFault::AcceptancesEqual => SuiteFault::AcceptancesEqual,
        SuiteTextFault::EmptyIsNoRule => SuiteFault::EmptyIsNoRule,
        SuiteTextFault::Nested => SuiteFault::Nested,
        SuiteTextFault::CodesIgnored => SuiteFault::CodesIgnored,
        SuiteTextFault::CodesAsSets => SuiteFault::CodesAsSets,
        SuiteTextFault::LastCodeIgnored => SuiteFault::LastCodeIgnored,
        _ => return None,
    })
}

/// The output for an input of bytes.
pub fn output_with(fault: SuiteTextFault, input: &[u8]) -> String {
    match verdict_fault(fault) {
        Some(other) => output_by(input, |reference, device| {
            let mut list = [0; 1_024];
            let suited = suite_with(other, reference, device, false, &mut list);
            let verdict = |&kind: &u8| match kind {
                PASSES => Verdict::Passes,
                _ => Verdict::Fails,
            };
            let places = list.iter().take(suited.count.into());
            match suited.refusal {
                0 => Ok(places.map(verdict).collect()),
                number => Err(number),
            }
        }),
        None => lines_with(fault, input),
    }
}

/// The output with a fault in its lines.
fn lines_with(fault: SuiteTextFault, input: &[u8]) -> String {
    let plain = output(input);
    let lines: Vec<&str> = plain.lines().collect();
    match fault {
        SuiteTextFault::HeadsExchanged => exchanged(&plain),
        SuiteTextFault::DeviceAlone if lines.len() == 2 => joined(&owned(&lines[1..])),
        SuiteTextFault::ElevenOfCompare => {
            plain.replace("suite refused 11", "comparison refused 11")
        }
        SuiteTextFault::NineteenOfCompare => {
            plain.replace("suite refused 19", "comparison refused 19")
        }
        SuiteTextFault::NineteenIsEleven => plain.replace("suite refused 19", "suite refused 11"),
        SuiteTextFault::TestsFromOne => each_line(&plain, |line| {
            let words: Vec<&str> = line.split(' ').collect();
            match words[..] {
                ["test", k, end] => {
                    format!("test {} {end}", k.parse::<usize>().unwrap_or(0) + 1)
                }
                _ => line.to_string(),
            }
        }),
        SuiteTextFault::FailedLinesOnly => without(&plain, |line| line.ends_with(" passes")),
        SuiteTextFault::StopsAtFailure => {
            let first = lines.iter().position(|line| line.ends_with(" fails"));
            let kept = first.map_or(lines.len(), |place| place + 1);
            let rest = lines[kept..]
                .iter()
                .filter(|line| !line.starts_with("test "));
            let all: Vec<&str> = lines[..kept].iter().chain(rest).copied().collect();
            joined(&owned(&all))
        }
        SuiteTextFault::FailedOneMore => {
            each_line(&plain, |line| match line.rsplit_once("failed ") {
                Some((front, count)) => {
                    format!("{front}failed {}", count.parse::<usize>().unwrap_or(0) + 1)
                }
                None => line.to_string(),
            })
        }
        SuiteTextFault::AllPassAlways => {
            each_line(&plain, |line| match line.split_once(" failed ") {
                Some((front, _)) => format!("{front} all pass"),
                None => line.to_string(),
            })
        }
        SuiteTextFault::RunLeftOut => each_line(&plain, |line| {
            let words: Vec<&str> = line.split(' ').collect();
            match words[..] {
                ["tests", n, "run", _, ref end @ ..] => format!("tests {n} {}", end.join(" ")),
                _ => line.to_string(),
            }
        }),
        SuiteTextFault::NoLastLine => without(&plain, |line| line.starts_with("tests ")),
        SuiteTextFault::NoLastNewline => plain.trim_end_matches('\n').to_string(),
        _ => plain,
    }
}
