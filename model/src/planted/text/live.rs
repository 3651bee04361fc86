//! The text of `live` with a fault planted.

use super::super::faults;
use super::super::runs::{open_with, step_with, RunFault};
use super::{each_line, without, without_events};
use crate::text::live::{output, output_by, Call};

faults! {
    /// One planted fault of the text, or none.
    LiveFault {
        /// The first line is missing.
        NoFirstLine,
        /// After a refused report the offer is not printed again.
        OfferOnce,
        /// A refused report does not say what its number means.
        NoMeaning,
        /// That an ending has failed is not said.
        FailedLeftOut,
        /// A stray is printed as a run that passed.
        StrayPasses,
        /// A refused set has no events.
        NoEvents,
        /// An empty offer has a blank at its end.
        BlankAfterOffer,
        /// The end of the input is not told.
        NoInputEnded,
        /// A carriage return counts.
        ReturnCounts,
        /// What stands after the last newline is a report.
        LastCounts,
        /// A fourth word is not looked at.
        AnyFourthWord,
        /// k and h are exchanged.
        WordsExchanged,
        /// A version 2 reference is refused.
        VersionTwoRefused,
        /// Below depth k only the initials are offered.
        InitialsBelow,
        /// The probe is taken from a list of every hitting set.
        EveryHittingSet,
        /// The probe is taken from a list that ascends by number.
        ByNumber,
        /// The probe is taken from a list with the higher of equally large probes first.
        HigherFirst,
        /// The probe is taken from a list with the largest probes first.
        LargestFirst,
        /// The empty acceptance is taken as "no rule here": a stray passes there.
        EmptyIsNoRule,
        /// A failure as refused names the probe alone.
        RefusedNamesProbe,
        /// An event at depth k goes on once more.
        OneDeeper,
        /// 14: 1,024 is accepted.
        NumberOneMore,
        /// An inconclusive run is printed as one that passed.
        InconclusivePasses,
        /// An inconclusive run is printed as one that failed.
        InconclusiveFails,
        /// An inconclusive ending is printed without the word `run`.
        InconclusiveAlone,
        /// After an inconclusive ending the end of the input is told too.
        InconclusiveReadsOn,
        /// A trace-only run that is blocked below depth k goes on with the same offer.
        InconclusiveGoesOn,
        /// A trace-only run that is blocked at depth k is inconclusive too.
        InconclusiveAtK,
        /// A trace-only run that is blocked with k 0 is inconclusive too.
        InconclusiveAtZero,
        /// A trace-only run that is blocked at depth k - 1 passes.
        InconclusiveOneShort,
        /// A trace-only run that is blocked below depth k passes at a node that may stop.
        InconclusiveUnlessStops,
        /// A run that is not trace-only is inconclusive too if it is blocked below depth k.
        InconclusiveWithRefusals,
    }
}

/// The line of an inconclusive ending.
const INCONCLUSIVE: &str = "run inconclusive\n";

/// The fault of the run that a fault of the text comes from; no fault comes from none.
fn run_fault(fault: LiveFault) -> Option<RunFault> {
    Some(match fault {
        LiveFault::None => RunFault::None,
        LiveFault::InitialsBelow => RunFault::InitialsBelow,
        LiveFault::EveryHittingSet => RunFault::EveryHittingSet,
        LiveFault::ByNumber => RunFault::ByNumber,
        LiveFault::HigherFirst => RunFault::HigherFirst,
        LiveFault::LargestFirst => RunFault::LargestFirst,
        LiveFault::EmptyIsNoRule => RunFault::EmptyIsNoRule,
        LiveFault::RefusedNamesProbe => RunFault::RefusedNamesProbe,
        LiveFault::OneDeeper => RunFault::OneDeeper,
        LiveFault::NumberOneMore => RunFault::NumberOneMore,
        LiveFault::InconclusiveGoesOn => RunFault::InconclusiveGoesOn,
        LiveFault::InconclusiveAtK => RunFault::InconclusiveAtK,
        LiveFault::InconclusiveAtZero => RunFault::InconclusiveAtZero,
        LiveFault::InconclusiveOneShort => RunFault::InconclusiveOneShort,
        LiveFault::InconclusiveUnlessStops => RunFault::InconclusiveUnlessStops,
        LiveFault::InconclusiveWithRefusals => RunFault::InconclusiveWithRefusals,
        _ => return None,
    })
}

/// The output of a call.
pub fn output_with(fault: LiveFault, call: &Call) -> String {
    if let Some(other) = run_fault(fault) {
        return output_by(
            call,
            &move |sheet, k, h, traces| open_with(other, sheet, k, h, traces),
            &move |sheet, run, report| step_with(other, sheet, run, report),
        );
    }
    let plain = output(&heard_with(fault, call));
    match fault {
        LiveFault::NoFirstLine => without(&plain, |line| line.ends_with(" events")),
        LiveFault::OfferOnce => offered_once(&plain),
        LiveFault::NoMeaning => each_line(&plain, |line| match line.strip_prefix("report ") {
            Some(_) => line.split(' ').take(3).collect::<Vec<_>>().join(" "),
            None => line.to_string(),
        }),
        LiveFault::FailedLeftOut => plain.replace("run failed ", ""),
        LiveFault::StrayPasses => each_line(&plain, |line| match line.contains("stray") {
            true => "run passed".to_string(),
            false => line.to_string(),
        }),
        LiveFault::NoEvents => without_events(&plain),
        LiveFault::BlankAfterOffer => plain.replace("offer\n", "offer \n"),
        LiveFault::NoInputEnded => without(&plain, |line| line == "input ended"),
        LiveFault::InconclusivePasses => plain.replace(INCONCLUSIVE, "run passed\n"),
        LiveFault::InconclusiveFails => plain.replace(INCONCLUSIVE, "run failed inconclusive\n"),
        LiveFault::InconclusiveAlone => plain.replace(INCONCLUSIVE, "inconclusive\n"),
        LiveFault::InconclusiveReadsOn => {
            plain.replace(INCONCLUSIVE, "run inconclusive\ninput ended\n")
        }
        _ => plain,
    }
}

/// The call as it is heard with a fault.
fn heard_with(fault: LiveFault, call: &Call) -> Call {
    let mut call = call.clone();
    match fault {
        // a carriage return more stays after one is taken away
        LiveFault::ReturnCounts => {
            let typed = String::from_utf8_lossy(&call.typed).replace("\r\n", "\r\r\n");
            call.typed = typed.into_bytes();
        }
        LiveFault::LastCounts if call.typed.last().is_some_and(|&last| last != b'\n') => {
            call.typed.push(b'\n');
        }
        LiveFault::AnyFourthWord => call.words.truncate(2),
        LiveFault::VersionTwoRefused if call.file.get(4) == Some(&2) => call.file[4] = 3,
        LiveFault::WordsExchanged if call.words.len() > 1 => call.words.swap(0, 1),
        _ => {}
    }
    call
}

/// A text without the offers that follow a refused report.
fn offered_once(plain: &str) -> String {
    let mut refused = false;
    let mut text = String::new();
    for line in plain.lines() {
        if !(refused && line.starts_with("offer")) {
            text += &format!("{line}\n");
        }
        refused = line.starts_with("report refused");
    }
    text
}
