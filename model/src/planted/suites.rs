//! The call on all tests at once, with a fault planted or none.

use super::codes::{codes_differ, CodesFault};
use super::faults;
use super::verdicts::{verdict_with, VerdictFault};
use crate::numbers::{judged, Suited, FAILS, PASSES};
use crate::sheet::{accept, Sheet};
use crate::verdict::{verdicts, Verdict};

faults! {
    /// One planted fault of the call, or none.
    SuiteFault {
        /// The last test is left out.
        OneShort,
        /// Tests from p + q on are written as passed.
        DepthSum,
        /// Tests from the larger number of nodes on are written as passed.
        DepthLarger,
        /// Only the initials are offered below depth k, so that strays are not seen there.
        InitialsBelow,
        /// Acceptances are compared for equality.
        AcceptancesEqual,
        /// The empty acceptance of the reference is taken as "no rule here".
        EmptyIsNoRule,
        /// After a test that fails all are written as failed.
        Nested,
        /// Fails for passes and passes for fails.
        Exchanged,
        /// A trace-only call is judged as another.
        TracesIgnored,
        /// An inconclusive run counts as failed.
        InconclusiveFails,
        /// The rest of the list is cleared.
        RestCleared,
        /// Nothing is written.
        NothingWritten,
        /// 10: a list one place too short is accepted.
        ListOneShort,
        /// 10 is looked for before 11.
        TenFirst,
        /// 19 is looked for before 11.
        NineteenFirst,
        /// 19 is looked for after 10.
        NineteenAfterTen,
        /// 19: unequal codes are accepted.
        CodesIgnored,
        /// 19: unequal codes are accepted in a trace-only call.
        TracesCodesIgnored,
        /// 19: codes are compared as sets.
        CodesAsSets,
        /// 19: the code of the last event is not compared.
        LastCodeIgnored,
        /// 19: only the low bytes of codes are compared.
        CodesLowByte,
        /// The device is checked before the reference.
        DeviceFirst,
        /// A refused call clears the list.
        RefusedClears,
    }
}

/// The checks of the call: the reference, the device, 11, 19, 10.
fn admit(
    fault: SuiteFault,
    reference: &Sheet,
    device: &Sheet,
    trace_only: bool,
    places: usize,
) -> Result<(), u8> {
    if fault == SuiteFault::DeviceFirst {
        accept(device)?;
    }
    accept(reference)?;
    accept(device)?;
    let tests = usize::from(reference.n) * usize::from(device.n);
    let test = |bad: bool, number: u8| if bad { Err(number) } else { Ok(()) };
    let events = test(reference.e != device.e, 11);
    let looked = codes_fault(fault, trace_only);
    let codes = test(codes_differ(looked, reference, device), 19);
    let room = places + usize::from(fault == SuiteFault::ListOneShort);
    let room = test(room < tests, 10);
    match fault {
        SuiteFault::TenFirst => room.and(events).and(codes),
        SuiteFault::NineteenFirst => codes.and(events).and(room),
        SuiteFault::NineteenAfterTen => events.and(room).and(codes),
        _ => events.and(codes).and(room),
    }
}

/// The fault of the codes that a fault of the call is.
fn codes_fault(fault: SuiteFault, trace_only: bool) -> CodesFault {
    match fault {
        SuiteFault::CodesIgnored => CodesFault::Ignored,
        SuiteFault::TracesCodesIgnored if trace_only => CodesFault::Ignored,
        SuiteFault::CodesAsSets => CodesFault::AsSets,
        SuiteFault::LastCodeIgnored => CodesFault::LastIgnored,
        SuiteFault::CodesLowByte => CodesFault::LowByte,
        _ => CodesFault::None,
    }
}

/// What a verdict is written as.
fn written(fault: SuiteFault, verdict: Verdict) -> u8 {
    let kind = judged(Ok(verdict)).kind;
    if fault == SuiteFault::Exchanged {
        PASSES + FAILS - kind
    } else {
        kind
    }
}

/// The fault of a single verdict that the call makes in each of its own.
fn single(fault: SuiteFault) -> Option<VerdictFault> {
    match fault {
        SuiteFault::InitialsBelow => Some(VerdictFault::InitialsBelow),
        SuiteFault::AcceptancesEqual => Some(VerdictFault::AcceptancesEqual),
        SuiteFault::EmptyIsNoRule => Some(VerdictFault::EmptyIsNoRule),
        SuiteFault::InconclusiveFails => Some(VerdictFault::InconclusiveFails),
        _ => None,
    }
}

/// The numbers of all tests. Codes were looked at before and play no part here.
fn kinds(fault: SuiteFault, reference: &Sheet, device: &Sheet, trace_only: bool) -> Vec<u8> {
    let device = &device.with_codes(reference.used_codes());
    let (p, q) = (usize::from(reference.n), usize::from(device.n));
    let trace_only = trace_only && fault != SuiteFault::TracesIgnored;
    let all = match single(fault) {
        Some(mistake) => (0..(p * q) as u16)
            .filter_map(|k| verdict_with(mistake, reference, device, k, trace_only).ok())
            .collect(),
        None => verdicts(reference, device, (p * q) as u16, trace_only).unwrap_or_default(),
    };
    let mut kinds: Vec<u8> = all.iter().map(|&verdict| written(fault, verdict)).collect();
    let bound = match fault {
        SuiteFault::DepthSum => p + q,
        SuiteFault::DepthLarger => p.max(q),
        _ => p * q,
    };
    for kind in kinds.iter_mut().skip(bound) {
        *kind = PASSES;
    }
    if fault == SuiteFault::Nested {
        let first = kinds
            .iter()
            .position(|&kind| kind == FAILS)
            .unwrap_or(p * q);
        kinds[first..].fill(FAILS);
    }
    if fault == SuiteFault::OneShort {
        kinds.pop();
    }
    kinds
}

/// Judges tests 0 to p·q − 1 into a lent list, or refuses.
pub fn suite_with(
    fault: SuiteFault,
    reference: &Sheet,
    device: &Sheet,
    trace_only: bool,
    out: &mut [u8],
) -> Suited {
    if let Err(refusal) = admit(fault, reference, device, trace_only, out.len()) {
        if fault == SuiteFault::RefusedClears {
            out.fill(0);
        }
        return Suited { refusal, count: 0 };
    }
    let kinds = kinds(fault, reference, device, trace_only);
    let count = kinds.len() as u16;
    if fault != SuiteFault::NothingWritten {
        for (place, kind) in out.iter_mut().zip(&kinds) {
            *place = *kind;
        }
    }
    if fault == SuiteFault::RestCleared && out.len() > kinds.len() {
        out[kinds.len()..].fill(0);
    }
    Suited { refusal: 0, count }
}
