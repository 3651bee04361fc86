//! The probe call with a fault planted.

use std::cmp::Reverse;

use super::faults;
use crate::probes::{meets_all, probes_of, size};
use crate::sheet::{accept, Sheet};

faults! {
    /// One planted fault of the probe call, or none.
    ProbeFault {
        /// Every hitting set is listed, not only the minimal ones.
        EveryHittingSet,
        /// The empty acceptance is taken as "no rule here": the node has the probe 0.
        EmptyIsNoRule,
        /// A set is not looked at without its highest event.
        HighestEventKept,
        /// The set of all events is never listed.
        AllEventsLeftOut,
        /// The list stands the other way round.
        Backwards,
        /// The list ascends by number.
        ByNumber,
        /// Of equally many events the higher number stands first.
        HigherFirst,
        /// The probes with most events stand first.
        LargestFirst,
        /// Only the first probe stands in its place; the others ascend by number.
        SmallestAlone,
        /// Of a probe only the events 0 to 7 are counted.
        LowEventsCounted,
        /// 9: the node N is accepted.
        NodeEqualsNodes,
        /// 9 is looked for before the sheet is checked.
        NodeBeforeSheet,
        /// 10: an exact list is refused.
        ExactRefused,
        /// 10: a list one short is filled as far as it goes.
        ShortAccepted,
        /// A refusal 10 has the number of probes beside it.
        CountWithRefusal,
        /// A refusal 10 writes as far as there is room.
        RefusalWrites,
        /// The list is written one place late where there is room.
        WrittenLate,
        /// Nothing is written.
        NothingWritten,
        /// The rest of the list is set to 0.
        RestCleared,
        /// The sheet is not checked again where that does no harm.
        SheetNotChecked,
    }
}

/// The probe call on a lent list: the refusal, 0 for none, and how many probes there are.
pub fn fill_with(fault: ProbeFault, sheet: &Sheet, node: u8, lent: &mut [u16]) -> (u8, u16) {
    if fault == ProbeFault::NodeBeforeSheet && node >= sheet.n {
        return (9, 0);
    }
    if let Err(number) = accept(sheet) {
        let harmless = matches!(number, 7 | 8) && node < sheet.n;
        if fault != ProbeFault::SheetNotChecked || !harmless {
            return (number, 0);
        }
    }
    let most = sheet.n + u8::from(fault == ProbeFault::NodeEqualsNodes && sheet.n < 32);
    if node >= most {
        return (9, 0);
    }
    let found = found_with(fault, sheet, node);
    let count = found.len() as u16;
    let short = match fault {
        ProbeFault::ExactRefused => lent.len() <= found.len(),
        ProbeFault::ShortAccepted => lent.len() + 1 < found.len(),
        _ => lent.len() < found.len(),
    };
    if short && fault == ProbeFault::RefusalWrites {
        write(&found, lent);
    }
    if short {
        let beside = fault == ProbeFault::CountWithRefusal;
        return (10, if beside { count } else { 0 });
    }
    match fault {
        ProbeFault::NothingWritten => {}
        ProbeFault::WrittenLate if lent.len() > found.len() => write(&found, &mut lent[1..]),
        _ => write(&found, lent),
    }
    if fault == ProbeFault::RestCleared {
        lent[found.len()..].fill(0);
    }
    (0, count)
}

fn write(found: &[u16], lent: &mut [u16]) {
    for (place, &probe) in lent.iter_mut().zip(found) {
        *place = probe;
    }
}

/// The list of a node.
pub fn found_with(fault: ProbeFault, sheet: &Sheet, node: u8) -> Vec<u16> {
    let row = sheet.row(node);
    let sets = row.acceptances();
    let all = sheet.alphabet();
    let mut found: Vec<u16> = match fault {
        ProbeFault::EveryHittingSet => (0..=all).filter(|&x| meets_all(sets, x)).collect(),
        ProbeFault::EmptyIsNoRule if row.may_stop() => vec![0],
        ProbeFault::HighestEventKept => (0..=all)
            .filter(|&x| meets_all(sets, x) && !smaller_without_low(sets, x))
            .collect(),
        _ => probes_of(sets, sheet.e),
    };
    if fault == ProbeFault::AllEventsLeftOut {
        found.retain(|&x| x != all);
    }
    order_with(fault, &mut found);
    found
}

/// Puts a list in order: it ascends by number first, and the later sorts keep that among equals.
fn order_with(fault: ProbeFault, found: &mut [u16]) {
    found.sort_unstable();
    match fault {
        ProbeFault::ByNumber => {}
        ProbeFault::HigherFirst => found.sort_by_key(|&x| (size(x), Reverse(x))),
        ProbeFault::LargestFirst => found.sort_by_key(|&x| Reverse(size(x))),
        ProbeFault::SmallestAlone => {
            if let Some(first) = (0..found.len()).min_by_key(|&place| size(found[place])) {
                found[..=first].rotate_right(1);
            }
        }
        ProbeFault::LowEventsCounted => found.sort_by_key(|&x| size(x & 0xFF)),
        _ => found.sort_by_key(|&x| size(x)),
    }
    if fault == ProbeFault::Backwards {
        found.reverse();
    }
}

/// Whether a set still meets all without one of its events other than the highest.
fn smaller_without_low(sets: &[u16], x: u16) -> bool {
    let highest = (1u32 << 15 >> x.leading_zeros().min(15)) as u16;
    let events = (0..16).map(|event| 1 << event);
    let mut low = events.filter(|bit| x & bit != 0 && *bit != highest);
    low.any(|bit| meets_all(sets, x & !bit))
}
