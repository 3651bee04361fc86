//! Openings and reports with a fault planted.

use super::faults;
use super::probes::{found_with, ProbeFault};
use crate::numbers::{report_of, stepped, Record, Stepped};
use crate::sheet::{accept, after, Sheet};
use crate::tests::{Answer, Report, Run, MAX_TEST};

faults! {
    /// One planted fault of a run, or none.
    RunFault {
        /// Below depth k only the initials are offered.
        InitialsBelow,
        /// At depth k the probe is offered without the events outside the initials.
        ProbeAlone,
        /// At depth k the initials are offered whole.
        NoProbe,
        /// The probe number is h where there are so many, else the last.
        ChoiceNotReduced,
        /// The probe number is counted from 1.
        NextProbe,
        /// The probe is taken from a list of every hitting set.
        EveryHittingSet,
        /// The probe is taken from a list that ascends by number.
        ByNumber,
        /// The probe is taken from a list with the higher of equally large probes first.
        HigherFirst,
        /// The probe is taken from a list with the largest probes first.
        LargestFirst,
        /// The empty acceptance is taken as "no rule here": a stray passes there.
        EmptyIsNoRule,
        /// Blocked passes at every node.
        BlockedPasses,
        /// Blocked fails at a node that may stop too.
        BlockedFails,
        /// A failure as refused names the probe alone.
        RefusedNamesProbe,
        /// A stray names the next event.
        StrayNext,
        /// An event at depth k goes on once more.
        OneDeeper,
        /// An event at depth k - 1 passes.
        OneShort,
        /// The depth does not grow.
        DepthStays,
        /// An ending moves the node.
        EndingMoves,
        /// An ending does not mark the record.
        EndingNotMarked,
        /// A stray goes back to node 0.
        EndingGoesBack,
        /// 16 is given after 9.
        NineBeforeSixteen,
        /// 17 is given before 15.
        SeventeenFirst,
        /// 9: a depth above k is accepted.
        DepthNotChecked,
        /// 9: the node N is accepted as the last node.
        NodeNotChecked,
        /// 9: a k above 1,023 is accepted.
        NumberNotChecked,
        /// 14: 1,024 is accepted.
        NumberOneMore,
        /// 14: 1,023 is refused.
        NumberOneLess,
        /// 14 is looked for before the sheet.
        NumberBeforeSheet,
        /// A refused opening has the record that was asked for.
        RefusedOpeningKept,
        /// A refused report ends the run.
        RefusedReportEnds,
        /// A trace-only run offers probes at depth k.
        TracesProbe,
        /// A trace-only run fails as refused.
        TracesRefused,
        /// A run is opened at node 0 with depth 1.
        OpenedDeep,
        /// A trace-only run that is blocked below depth k passes.
        BlockedBelowPasses,
        /// A trace-only run that is blocked at depth k is inconclusive too.
        InconclusiveAtK,
        /// A trace-only run that is blocked with k 0 is inconclusive too.
        InconclusiveAtZero,
        /// A trace-only run that is blocked at depth k - 1 passes.
        InconclusiveOneShort,
        /// A trace-only run that is blocked after an event passes at every depth.
        InconclusiveAtStart,
        /// A trace-only run that is blocked below depth k passes at a node that may stop.
        InconclusiveUnlessStops,
        /// A trace-only run that is blocked below depth k passes at a node that may not stop.
        InconclusiveIfStops,
        /// A run that is not trace-only is inconclusive too if it is blocked below depth k.
        InconclusiveWithRefusals,
        /// The same, at a node that may stop only: elsewhere it fails as refused.
        InconclusiveForPassed,
        /// A trace-only run that is blocked below depth k fails as refused at every node.
        InconclusiveFails,
        /// A trace-only run that is blocked below depth k goes on with the same offer.
        InconclusiveGoesOn,
        /// An inconclusive ending does not mark the record.
        InconclusiveNotMarked,
        /// An inconclusive ending goes back to node 0.
        InconclusiveGoesBack,
        /// An inconclusive ending makes the depth grow.
        InconclusiveDeeper,
        /// In numbers, an inconclusive ending has the set offered.
        InconclusiveNamesOffer,
        /// In numbers, a trace-only run that is blocked below depth k passes unless its flag of
        /// trace-only is 1.
        InconclusiveByOne,
    }
}

/// Opens a run.
pub fn open_with(
    fault: RunFault,
    sheet: &Sheet,
    k: u16,
    h: u16,
    trace_only: bool,
) -> (Answer, Run) {
    let mut run = Run {
        k,
        h,
        trace_only,
        ..Run::ZERO
    };
    let most = match fault {
        RunFault::NumberOneMore => MAX_TEST + 1,
        RunFault::NumberOneLess => MAX_TEST - 1,
        _ => MAX_TEST,
    };
    let number = if k > most { Err(14) } else { Ok(()) };
    let refused = match fault {
        RunFault::NumberBeforeSheet => number.and_then(|()| accept(sheet)),
        _ => accept(sheet).and(number),
    };
    if let Err(number) = refused {
        let kept = fault == RunFault::RefusedOpeningKept;
        return (Answer::Denied(number), if kept { run } else { Run::ZERO });
    }
    let offer = offer_with(fault, sheet, &run);
    if fault == RunFault::OpenedDeep {
        run.depth = 1;
    }
    (Answer::Going(offer), run)
}

/// Answers a report in numbers. Two faults show in these alone.
pub fn step_numbers_with(fault: RunFault, sheet: &Sheet, record: &Record, code: u16) -> Stepped {
    let passes = fault == RunFault::InconclusiveByOne && record.traces != 1;
    let fault = match passes {
        true => RunFault::BlockedBelowPasses,
        false => fault,
    };
    let run = record.run();
    let (answer, after) = step_with(fault, sheet, &run, report_of(code));
    let mut numbers = stepped(record, (answer, after));
    if fault == RunFault::InconclusiveNamesOffer && answer == Answer::Inconclusive {
        numbers.answer.value = offer_with(fault, sheet, &run);
    }
    numbers
}

/// Answers a report.
pub fn step_with(fault: RunFault, sheet: &Sheet, run: &Run, report: Report) -> (Answer, Run) {
    match admit(fault, sheet, run, report) {
        Ok(run) => advance(fault, sheet, &run, report),
        Err(number) => {
            let ended = run.ended || fault == RunFault::RefusedReportEnds;
            (Answer::Denied(number), Run { ended, ..*run })
        }
    }
}

fn admit(fault: RunFault, sheet: &Sheet, run: &Run, report: Report) -> Result<Run, u8> {
    accept(sheet)?;
    let mut run = *run;
    let ended = if run.ended { Err(16) } else { Ok(()) };
    if fault == RunFault::NodeNotChecked && run.node == sheet.n {
        run.node = sheet.n - 1;
    }
    let record = if run.node >= sheet.n
        || run.depth > run.k && fault != RunFault::DepthNotChecked
        || run.k > MAX_TEST && fault != RunFault::NumberNotChecked
    {
        Err(9)
    } else {
        Ok(())
    };
    match fault {
        RunFault::NineBeforeSixteen => record.and(ended)?,
        _ => ended.and(record)?,
    }
    let Report::Event(event) = report else {
        return Ok(run);
    };
    let beyond = event >= sheet.e;
    let offered = event < 16 && offer_with(fault, sheet, &run) >> event & 1 == 1;
    match (beyond, offered) {
        (true, false) if fault == RunFault::SeventeenFirst => Err(17),
        (true, _) => Err(15),
        (false, false) => Err(17),
        (false, true) => Ok(run),
    }
}

/// The fault of the probe list that a fault of the run is.
fn list_fault(fault: RunFault) -> ProbeFault {
    match fault {
        RunFault::EveryHittingSet => ProbeFault::EveryHittingSet,
        RunFault::ByNumber => ProbeFault::ByNumber,
        RunFault::HigherFirst => ProbeFault::HigherFirst,
        RunFault::LargestFirst => ProbeFault::LargestFirst,
        _ => ProbeFault::None,
    }
}

fn offer_with(fault: RunFault, sheet: &Sheet, run: &Run) -> u16 {
    let all = sheet.alphabet();
    let initials = sheet.initials(run.node);
    let traces = run.trace_only && fault != RunFault::TracesProbe;
    if traces || run.depth < run.k {
        let fewer = fault == RunFault::InitialsBelow && run.depth < run.k;
        return if fewer { initials } else { all };
    }
    let outside = all & !initials;
    let list = found_with(list_fault(fault), sheet, run.node);
    let m = list.len();
    if m == 0 {
        return outside;
    }
    let h = run.h as usize;
    let probe = match fault {
        RunFault::ChoiceNotReduced => list[h.min(m - 1)],
        RunFault::NextProbe => list[(h + 1) % m],
        RunFault::NoProbe => initials,
        _ => list[h % m],
    };
    match fault {
        RunFault::ProbeAlone => probe,
        _ => probe | outside,
    }
}

fn advance(fault: RunFault, sheet: &Sheet, run: &Run, report: Report) -> (Answer, Run) {
    let ended = Run {
        ended: fault != RunFault::EndingNotMarked,
        ..*run
    };
    let stops = sheet.row(run.node).may_stop();
    let event = match report {
        Report::Blocked if inconclusive(fault, run, stops) => {
            return below_k(fault, sheet, run, ended)
        }
        Report::Blocked => return (blocked(fault, sheet, run, stops), ended),
        Report::Event(event) => event,
    };
    let Some(node) = after(sheet, run.node, event) else {
        let back = fault == RunFault::EndingGoesBack;
        let node = if back { 0 } else { run.node };
        let stray = Run { node, ..ended };
        return match fault {
            RunFault::EmptyIsNoRule if stops => (Answer::Passed, stray),
            RunFault::StrayNext => (Answer::Stray(event + 1), stray),
            _ => (Answer::Stray(event), stray),
        };
    };
    let last = match fault {
        RunFault::OneDeeper => run.k + 1,
        RunFault::OneShort => run.k.saturating_sub(1),
        _ => run.k,
    };
    if run.depth >= last {
        let moves = fault == RunFault::EndingMoves;
        let node = if moves { node } else { run.node };
        return (Answer::Passed, Run { node, ..ended });
    }
    let deeper = u16::from(fault != RunFault::DepthStays);
    let moved = Run {
        node,
        depth: run.depth + deeper,
        ..*run
    };
    (Answer::Going(offer_with(fault, sheet, &moved)), moved)
}

/// Whether a run that is blocked counts as blocked too early to have passed or failed.
fn inconclusive(fault: RunFault, run: &Run, stops: bool) -> bool {
    let early = match fault {
        RunFault::InconclusiveAtK => run.depth <= run.k,
        RunFault::InconclusiveAtZero => run.depth < run.k || run.k == 0,
        RunFault::InconclusiveOneShort => run.depth + 1 < run.k,
        RunFault::InconclusiveAtStart => run.depth == 0 && run.k > 0,
        _ => run.depth < run.k,
    };
    let counts = match fault {
        RunFault::BlockedBelowPasses | RunFault::TracesRefused => false,
        RunFault::InconclusiveUnlessStops => run.trace_only && !stops,
        RunFault::InconclusiveIfStops => run.trace_only && stops,
        RunFault::InconclusiveForPassed => run.trace_only || stops,
        RunFault::InconclusiveWithRefusals => true,
        _ => run.trace_only,
    };
    early && counts
}

/// The ending of such a run.
fn below_k(fault: RunFault, sheet: &Sheet, run: &Run, ended: Run) -> (Answer, Run) {
    let answer = match fault {
        RunFault::InconclusiveFails => Answer::Refused(offer_with(fault, sheet, run)),
        RunFault::InconclusiveGoesOn => Answer::Going(offer_with(fault, sheet, run)),
        _ => Answer::Inconclusive,
    };
    let after = match fault {
        RunFault::InconclusiveGoesOn | RunFault::InconclusiveNotMarked => *run,
        RunFault::InconclusiveGoesBack => Run { node: 0, ..ended },
        RunFault::InconclusiveDeeper => Run {
            depth: run.depth + 1,
            ..ended
        },
        _ => ended,
    };
    (answer, after)
}

/// The ending of any other run that is blocked.
fn blocked(fault: RunFault, sheet: &Sheet, run: &Run, stops: bool) -> Answer {
    let traces = run.trace_only && fault != RunFault::TracesRefused;
    let stops = stops && fault != RunFault::BlockedFails;
    if traces || stops || fault == RunFault::BlockedPasses {
        return Answer::Passed;
    }
    let offer = offer_with(fault, sheet, run);
    match fault {
        RunFault::RefusedNamesProbe => Answer::Refused(offer & sheet.initials(run.node)),
        _ => Answer::Refused(offer),
    }
}
