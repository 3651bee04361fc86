//! The answers and records of the calls in numbers, as they cross the edge, in the layout
//! of C.

use crate::bound;
use crate::comparison::{compare_into, Named, Outcome};
use crate::keypad::{self, Bad, Checked, Looked};
use crate::load;
use crate::probes::fill;
use crate::scripts::{count, Counts};
use crate::sheet::Sheet;
use crate::tests::{open, step, Answer, Report, Run};
use crate::verdict::{verdict, Verdict};

/// The number of a verdict that passes.
pub const PASSES: u8 = 11;
/// The number of a verdict that fails.
pub const FAILS: u8 = 12;
/// The number of a comparison that refines.
pub const REFINES: u8 = 21;
/// The number of a comparison that names a stray.
pub const STRAY: u8 = 22;
/// The number of a comparison that names a refusal.
pub const REFUSAL: u8 = 23;
/// The number of a rule table that is good.
pub const GOOD: u8 = 31;
/// The number of a rule table with a gap.
pub const GAP: u8 = 32;
/// The number of a rule table with an overlap.
pub const OVERLAP: u8 = 33;
/// The number of a lookup that gives an event.
pub const EVENT: u8 = 34;

/// The answer of a probe list: the refusal, 0 for none, and how many probes there are.
#[repr(C)]
#[derive(Clone, Copy, PartialEq, Eq, Debug)]
pub struct Listed {
    pub refusal: u8,
    pub count: u16,
}

/// The answer on all tests: the refusal, 0 for none, and how many were judged.
#[repr(C)]
#[derive(Clone, Copy, PartialEq, Eq, Debug)]
pub struct Suited {
    pub refusal: u8,
    pub count: u16,
}

/// The answer of a count of scripts: the refusal, 0 for none, and the three counts.
#[repr(C)]
#[derive(Clone, Copy, PartialEq, Eq, Debug)]
pub struct Scripts {
    pub refusal: u8,
    pub walked: u64,
    pub device: u64,
    pub reference: u64,
}

/// The answer on a rule table: the refusal, 0 for none; which case it is, 0 for a refusal; the bad
/// code and, of an overlap, two rules.
#[repr(C)]
#[derive(Clone, Copy, PartialEq, Eq, Debug)]
pub struct Keypad {
    pub refusal: u8,
    pub kind: u8,
    pub code: u8,
    pub first: u8,
    pub second: u8,
}

/// The answer to a lookup: as on a rule table, and the event.
#[repr(C)]
#[derive(Clone, Copy, PartialEq, Eq, Debug)]
pub struct Found {
    pub refusal: u8,
    pub kind: u8,
    pub event: u8,
    pub code: u8,
    pub first: u8,
    pub second: u8,
}

/// The answer of a walk: the refusal, 0 for none, and how many events it has.
#[repr(C)]
#[derive(Clone, Copy, PartialEq, Eq, Debug)]
pub struct Walked {
    pub refusal: u8,
    pub length: u16,
}

/// The answer of the call on the bound: the refusal, 0 for none, and the lengths of the reference
/// and of the device in bytes.
#[repr(C)]
#[derive(Clone, Copy, PartialEq, Eq, Debug)]
pub struct Bounded {
    pub refusal: u8,
    pub reference: u16,
    pub device: u16,
}

/// An answer to an opening or a report: the refusal, 0 for none; which case it is, 0 for a
/// refusal; the event or the set of that case.
#[repr(C)]
#[derive(Clone, Copy, PartialEq, Eq, Debug)]
pub struct Said {
    pub refusal: u8,
    pub kind: u8,
    pub value: u16,
}

/// A verdict: the refusal, 0 for none; the number of the verdict, 0 for a refusal.
#[repr(C)]
#[derive(Clone, Copy, PartialEq, Eq, Debug)]
pub struct Judged {
    pub refusal: u8,
    pub kind: u8,
}

/// A run's record. A flag is false as 0 and true as any other number.
#[repr(C)]
#[derive(Clone, Copy, PartialEq, Eq, Debug)]
pub struct Record {
    pub k: u16,
    pub h: u16,
    pub traces: u8,
    pub ended: u8,
    pub node: u8,
    pub depth: u16,
}

/// An answer and the record after it.
#[repr(C)]
#[derive(Clone, Copy, PartialEq, Eq, Debug)]
pub struct Stepped {
    pub answer: Said,
    pub run: Record,
}

/// The answer of a comparison: the refusal, 0 for none; which case it is; d, cleared, and
/// what is named.
#[repr(C)]
#[derive(Clone, Copy, PartialEq, Eq, Debug)]
pub struct Compared {
    pub refusal: u8,
    pub kind: u8,
    pub d: u16,
    pub cleared: u16,
    pub event: u8,
    pub probe: u16,
    pub acceptance: u16,
}

impl Record {
    /// The record of a refused opening.
    pub const ZERO: Record = Record {
        k: 0,
        h: 0,
        traces: 0,
        ended: 0,
        node: 0,
        depth: 0,
    };

    /// The record that the numbers are.
    pub fn run(&self) -> Run {
        Run {
            k: self.k,
            h: self.h,
            trace_only: self.traces != 0,
            ended: self.ended != 0,
            node: self.node,
            depth: self.depth,
        }
    }

    /// The numbers of a record that was these numbers before: a flag that stays as it
    /// was keeps its number.
    pub fn after(&self, run: &Run) -> Record {
        let flag = |old: u8, now: bool| match (old != 0, now) {
            (before, after) if before == after => old,
            (_, after) => u8::from(after),
        };
        Record {
            k: run.k,
            h: run.h,
            traces: flag(self.traces, run.trace_only),
            ended: flag(self.ended, run.ended),
            node: run.node,
            depth: run.depth,
        }
    }
}

/// The report of a code: 0 to 255 is that event, any other number is "blocked".
pub fn report_of(code: u16) -> Report {
    match u8::try_from(code) {
        Ok(event) => Report::Event(event),
        Err(_) => Report::Blocked,
    }
}

/// The numbers of an answer.
pub fn said(answer: Answer) -> Said {
    let (refusal, kind, value) = match answer {
        Answer::Denied(number) => (number, 0, 0),
        Answer::Going(set) => (0, 1, set),
        Answer::Stray(event) => (0, 2, u16::from(event)),
        Answer::Refused(set) => (0, 3, set),
        Answer::Passed => (0, 4, 0),
        Answer::Inconclusive => (0, 5, 0),
    };
    Said {
        refusal,
        kind,
        value,
    }
}

/// The numbers of an answer and of the record after it.
pub fn stepped(before: &Record, (answer, run): (Answer, Run)) -> Stepped {
    Stepped {
        answer: said(answer),
        run: before.after(&run),
    }
}

/// The numbers of a probe list's answer.
pub fn listed(answer: Result<usize, u8>) -> Listed {
    Listed {
        refusal: answer.err().unwrap_or(0),
        count: answer.map_or(0, |count| count as u16),
    }
}

/// The numbers of a verdict.
pub fn judged(answer: Result<Verdict, u8>) -> Judged {
    let (refusal, kind) = match answer {
        Ok(Verdict::Passes) => (0, PASSES),
        Ok(Verdict::Fails) => (0, FAILS),
        Err(number) => (number, 0),
    };
    Judged { refusal, kind }
}

/// The numbers of a comparison's answer.
pub fn compared(answer: &Result<Outcome, u8>) -> Compared {
    let zero = Compared {
        refusal: 0,
        kind: 0,
        d: 0,
        cleared: 0,
        event: 0,
        probe: 0,
        acceptance: 0,
    };
    match *answer {
        Err(refusal) => Compared { refusal, ..zero },
        Ok(Outcome::Refines { cleared }) => Compared {
            kind: REFINES,
            cleared,
            ..zero
        },
        Ok(Outcome::Violates {
            d, cleared, named, ..
        }) => match named {
            Named::Stray(event) => Compared {
                kind: STRAY,
                d,
                cleared,
                event,
                ..zero
            },
            Named::Refused { probe, acceptance } => Compared {
                kind: REFUSAL,
                d,
                cleared,
                probe,
                acceptance,
                ..zero
            },
        },
    }
}

/// The numbers of a count of scripts.
pub fn counted(answer: Result<Counts, u8>) -> Scripts {
    let counts = answer.unwrap_or(Counts::NONE);
    Scripts {
        refusal: answer.err().unwrap_or(0),
        walked: counts.walked,
        device: counts.device,
        reference: counts.reference,
    }
}

/// The numbers of what is wrong with a rule table.
fn bad(bad: Bad) -> Keypad {
    let (kind, code, first, second) = match bad {
        Bad::Gap { code } => (GAP, code, 0, 0),
        Bad::Overlap {
            code,
            first,
            second,
        } => (OVERLAP, code, first, second),
    };
    Keypad {
        refusal: 0,
        kind,
        code,
        first,
        second,
    }
}

/// The numbers of an answer on a rule table.
pub fn checked(answer: Result<Checked, u8>) -> Keypad {
    let zero = Keypad {
        refusal: 0,
        kind: 0,
        code: 0,
        first: 0,
        second: 0,
    };
    match answer {
        Ok(Checked::Good) => Keypad { kind: GOOD, ..zero },
        Ok(Checked::Bad(what)) => bad(what),
        Err(refusal) => Keypad { refusal, ..zero },
    }
}

/// The numbers of an answer to a lookup.
pub fn looked(answer: Result<Looked, u8>) -> Found {
    let zero = Found {
        refusal: 0,
        kind: 0,
        event: 0,
        code: 0,
        first: 0,
        second: 0,
    };
    match answer {
        Ok(Looked::Event(event)) => Found {
            kind: EVENT,
            event,
            ..zero
        },
        Ok(Looked::Bad(what)) => {
            let Keypad {
                kind,
                code,
                first,
                second,
                ..
            } = bad(what);
            Found {
                kind,
                code,
                first,
                second,
                ..zero
            }
        }
        Err(refusal) => Found { refusal, ..zero },
    }
}

/// The numbers of a walk's answer.
pub fn walked(answer: Result<usize, u8>) -> Walked {
    Walked {
        refusal: answer.err().unwrap_or(0),
        length: answer.map_or(0, |length| length as u16),
    }
}

/// The numbers of the answer on the bound.
pub fn bounded(answer: Result<(usize, usize), u8>) -> Bounded {
    let (reference, device) = answer.unwrap_or((0, 0));
    Bounded {
        refusal: answer.err().unwrap_or(0),
        reference: reference as u16,
        device: device as u16,
    }
}

/// The probe call in numbers.
pub fn list_numbers(sheet: &Sheet, node: u8, lent: &mut [u16]) -> Listed {
    listed(fill(sheet, node, lent))
}

/// The opening in numbers.
pub fn open_numbers(sheet: &Sheet, k: u16, h: u16, traces: u8) -> Stepped {
    stepped(&Record::ZERO, open(sheet, k, h, traces != 0))
}

/// The report in numbers.
pub fn step_numbers(sheet: &Sheet, record: &Record, code: u16) -> Stepped {
    stepped(record, step(sheet, &record.run(), report_of(code)))
}

/// The verdict in numbers.
pub fn judge_numbers(reference: &Sheet, device: &Sheet, k: u16, traces: u8) -> Judged {
    judged(verdict(reference, device, k, traces != 0))
}

/// The comparison in numbers.
pub fn compare_numbers(
    reference: &Sheet,
    device: &Sheet,
    traces: u8,
    work: &mut [u16],
    trace: &mut [u8],
) -> Compared {
    compared(&compare_into(reference, device, traces != 0, work, trace))
}

/// The count of scripts in numbers.
pub fn count_numbers(reference: &Sheet, device: &Sheet, length: u16) -> Scripts {
    counted(count(reference, device, length))
}

/// The check of a rule table in numbers.
pub fn keypad_numbers(sheet: &Sheet, table: &[u8]) -> Keypad {
    checked(keypad::check(sheet, table))
}

/// The lookup in numbers.
pub fn find_numbers(sheet: &Sheet, table: &[u8], code: u8) -> Found {
    looked(keypad::find(sheet, table, code))
}

/// The walk call in numbers.
pub fn walk_numbers(sheet: &Sheet, seed: u32, wish: u16, lent: &mut [u8]) -> Walked {
    walked(load::fill(sheet, seed, wish, lent))
}

/// The call on the bound in numbers.
pub fn bound_numbers(p: u8, q: u8, reference: &mut [u8], device: &mut [u8]) -> Bounded {
    bounded(bound::fill(p, q, reference, device))
}
