//! Test k as a live run: the record, opening, and the answer to each report.

use crate::probes::probes;
use crate::sheet::{accept, after, Sheet};
pub use crate::verdict::{verdict, verdicts, Verdict};

/// The highest test number.
pub const MAX_TEST: u16 = 1_023;

/// The record of a run.
#[derive(Clone, Copy, PartialEq, Eq, Debug)]
pub struct Run {
    pub k: u16,
    pub h: u16,
    pub trace_only: bool,
    pub ended: bool,
    pub node: u8,
    pub depth: u16,
}

impl Run {
    /// The record of a refused opening.
    pub const ZERO: Run = Run {
        k: 0,
        h: 0,
        trace_only: false,
        ended: false,
        node: 0,
        depth: 0,
    };
}

/// What the bench reports after an offer.
#[derive(Clone, Copy, PartialEq, Eq, Debug)]
pub enum Report {
    Event(u8),
    Blocked,
}

/// What a report is answered with: the run goes on, with the next offer; it ends, failed as stray
/// or as refused, passed, or inconclusive; or the report is refused.
#[derive(Clone, Copy, PartialEq, Eq, Debug)]
pub enum Answer {
    Going(u16),
    Stray(u8),
    Refused(u16),
    Passed,
    Inconclusive,
    Denied(u8),
}

impl Answer {
    /// An ending that counts as failed. An inconclusive one does not.
    pub fn failed(self) -> bool {
        matches!(self, Answer::Stray(_) | Answer::Refused(_))
    }
}

/// Opens a run: the first offer and the record, or a refusal (the sheet's, then 14)
/// and a record of zeros.
pub fn open(sheet: &Sheet, k: u16, h: u16, trace_only: bool) -> (Answer, Run) {
    if let Err(number) = accept(sheet).and_then(|()| test_number(k)) {
        return (Answer::Denied(number), Run::ZERO);
    }
    let run = Run {
        k,
        h,
        trace_only,
        ..Run::ZERO
    };
    (Answer::Going(offer(sheet, &run)), run)
}

/// Answers a report: the answer and the record as it is afterwards. A refusal leaves
/// the record as it was.
pub fn step(sheet: &Sheet, run: &Run, report: Report) -> (Answer, Run) {
    match admit(sheet, run, report) {
        Ok(()) => advance(sheet, run, report, &offer),
        Err(number) => (Answer::Denied(number), *run),
    }
}

/// The same on the bench's own record.
pub fn report(sheet: &Sheet, run: &mut Run, report: Report) -> Answer {
    let (answer, altered) = step(sheet, run, report);
    *run = altered;
    answer
}

/// 14: a test number above 1,023.
pub fn test_number(k: u16) -> Result<(), u8> {
    if k > MAX_TEST {
        Err(14)
    } else {
        Ok(())
    }
}

/// The checks of a report in their order: the sheet, 16, 9, 15, 17.
fn admit(sheet: &Sheet, run: &Run, report: Report) -> Result<(), u8> {
    accept(sheet)?;
    if run.ended {
        return Err(16);
    }
    if run.node >= sheet.n || run.depth > run.k || run.k > MAX_TEST {
        return Err(9);
    }
    let Report::Event(event) = report else {
        return Ok(());
    };
    if event >= sheet.e {
        return Err(15);
    }
    if offer(sheet, run) >> event & 1 == 0 {
        return Err(17);
    }
    Ok(())
}

/// The offer of a run on an accepted sheet. Trace-only and below depth k: all events.
/// At depth k: the chosen probe, if there is one, and all events outside the initials.
pub fn offer(sheet: &Sheet, run: &Run) -> u16 {
    if run.trace_only || run.depth < run.k {
        return sheet.alphabet();
    }
    last_offer(sheet, run, &probes(sheet, run.node))
}

/// The offer at depth k of a run that is not trace-only, given the probe list.
pub fn last_offer(sheet: &Sheet, run: &Run, list: &[u16]) -> u16 {
    let outside = sheet.alphabet() & !sheet.initials(run.node);
    match list.len() {
        0 => outside,
        m => list[run.h as usize % m] | outside,
    }
}

/// The run rules for an admitted report. `offer` gives the offer of a record.
pub fn advance(
    sheet: &Sheet,
    run: &Run,
    report: Report,
    offer: &dyn Fn(&Sheet, &Run) -> u16,
) -> (Answer, Run) {
    let ended = Run {
        ended: true,
        ..*run
    };
    let event = match report {
        Report::Blocked => return (blocked(sheet, run, offer), ended),
        Report::Event(event) => event,
    };
    match after(sheet, run.node, event) {
        None => (Answer::Stray(event), ended),
        Some(_) if run.depth == run.k => (Answer::Passed, ended),
        Some(node) => {
            let moved = Run {
                node,
                depth: run.depth + 1,
                ..*run
            };
            (Answer::Going(offer(sheet, &moved)), moved)
        }
    }
}

/// The ending of a run that is blocked. A trace-only run is inconclusive below depth k and has
/// passed at depth k, whether the node may stop or not. Any other run has passed where the node may
/// stop, at every depth, and has failed as refused elsewhere.
fn blocked(sheet: &Sheet, run: &Run, offer: &dyn Fn(&Sheet, &Run) -> u16) -> Answer {
    if run.trace_only && run.depth < run.k {
        return Answer::Inconclusive;
    }
    if run.trace_only || sheet.row(run.node).may_stop() {
        return Answer::Passed;
    }
    Answer::Refused(offer(sheet, run))
}
