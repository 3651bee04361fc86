//! Verdicts with a fault planted. They are found by the strays, stops and refusals at the
//! pairs of each depth, not by playing runs.

use std::collections::BTreeSet;

use super::codes::{codes_differ, CodesFault};
use super::faults;
use crate::comparison::{refuses, strays};
use crate::probes::probes;
use crate::sheet::{accept, after, Sheet};
use crate::tests::MAX_TEST;
use crate::verdict::Verdict;

faults! {
    /// One planted fault of a verdict, or none.
    VerdictFault {
        /// The last depth is left out.
        OneShort,
        /// One depth more is looked at.
        OneMore,
        /// A test deeper than p + q is judged at p + q.
        DepthSum,
        /// A test deeper than the larger number of nodes is judged there.
        DepthLarger,
        /// Only the initials are offered below depth k, so that strays are not seen there.
        InitialsBelow,
        /// Acceptances are compared for equality.
        AcceptancesEqual,
        /// The empty acceptance of the reference is taken as "no rule here".
        EmptyIsNoRule,
        /// The empty acceptance of the device is skipped.
        DeviceStopSkipped,
        /// A device that stops below depth k is not seen.
        StopBelowUnseen,
        /// Refusals are looked for at every depth.
        RefusalsBelow,
        /// Refusals are not looked for at depth k.
        NoRefusals,
        /// Only the first probe is offered.
        FirstProbeOnly,
        /// A trace-only test is judged as another.
        TracesIgnored,
        /// Every test is judged as trace-only.
        TracesAlways,
        /// An inconclusive run counts as failed.
        InconclusiveFails,
        /// 14 is looked for before 11.
        FourteenFirst,
        /// 19 is looked for before 11.
        NineteenFirst,
        /// 19 is looked for after 14.
        NineteenAfterFourteen,
        /// 19: unequal codes are accepted.
        CodesIgnored,
        /// 19: unequal codes are accepted for a trace-only test.
        TracesCodesIgnored,
        /// 19: codes are compared as sets.
        CodesAsSets,
        /// 19: the code of the last event is not compared.
        LastCodeIgnored,
        /// 19: only the low bytes of codes are compared.
        CodesLowByte,
        /// 14: 1,024 is accepted.
        NumberOneMore,
        /// The device is checked before the reference.
        DeviceFirst,
        /// 11 is not looked for where the reference has more events.
        ElevenOneWay,
        /// Fails for passes and passes for fails.
        Exchanged,
    }
}

/// The verdict on test k.
pub fn verdict_with(
    fault: VerdictFault,
    reference: &Sheet,
    device: &Sheet,
    k: u16,
    trace_only: bool,
) -> Result<Verdict, u8> {
    admit(fault, reference, device, k, trace_only)?;
    let (p, q) = (u16::from(reference.n), u16::from(device.n));
    let k = match fault {
        VerdictFault::OneShort => k.saturating_sub(1),
        VerdictFault::OneMore => k + 1,
        VerdictFault::DepthSum => k.min(p + q),
        VerdictFault::DepthLarger => k.min(p.max(q)),
        _ => k,
    };
    let trace_only = match fault {
        VerdictFault::TracesIgnored => false,
        VerdictFault::TracesAlways => true,
        _ => trace_only,
    };
    let mut layer = BTreeSet::from([(0u8, 0u8)]);
    let mut fails = false;
    for depth in 0..=k {
        let mut next = BTreeSet::new();
        for &pair in &layer {
            fails |= failing(fault, reference, device, pair, depth == k, trace_only);
            for event in 0..reference.e {
                let steps = (
                    after(reference, pair.0, event),
                    after(device, pair.1, event),
                );
                if let (Some(a), Some(b)) = steps {
                    next.insert((a, b));
                }
            }
        }
        if fails {
            break;
        }
        layer = next;
    }
    let fails = fails != (fault == VerdictFault::Exchanged);
    Ok(if fails {
        Verdict::Fails
    } else {
        Verdict::Passes
    })
}

fn admit(
    fault: VerdictFault,
    reference: &Sheet,
    device: &Sheet,
    k: u16,
    trace_only: bool,
) -> Result<(), u8> {
    let most = MAX_TEST + u16::from(fault == VerdictFault::NumberOneMore);
    let number = if k > most { Err(14) } else { Ok(()) };
    let (e, f) = (reference.e, device.e);
    let one_way = fault == VerdictFault::ElevenOneWay && e > f;
    let events = if e == f || one_way { Ok(()) } else { Err(11) };
    let differ = codes_differ(codes_fault(fault, trace_only), reference, device);
    let codes = if differ { Err(19) } else { Ok(()) };
    if fault == VerdictFault::DeviceFirst {
        accept(device)?;
    }
    accept(reference)?;
    accept(device)?;
    match fault {
        VerdictFault::FourteenFirst => number.and(events).and(codes),
        VerdictFault::NineteenFirst => codes.and(events).and(number),
        VerdictFault::NineteenAfterFourteen => events.and(number).and(codes),
        _ => events.and(codes).and(number),
    }
}

/// The fault of the codes that a fault of the verdict is.
fn codes_fault(fault: VerdictFault, trace_only: bool) -> CodesFault {
    match fault {
        VerdictFault::CodesIgnored => CodesFault::Ignored,
        VerdictFault::TracesCodesIgnored if trace_only => CodesFault::Ignored,
        VerdictFault::CodesAsSets => CodesFault::AsSets,
        VerdictFault::LastCodeIgnored => CodesFault::LastIgnored,
        VerdictFault::CodesLowByte => CodesFault::LowByte,
        _ => CodesFault::None,
    }
}

/// Whether a run can end failed at a pair.
fn failing(
    fault: VerdictFault,
    reference: &Sheet,
    device: &Sheet,
    pair: (u8, u8),
    last: bool,
    trace_only: bool,
) -> bool {
    let (row, other) = (reference.row(pair.0), device.row(pair.1));
    let free = fault == VerdictFault::EmptyIsNoRule && row.may_stop();
    let hidden = fault == VerdictFault::InitialsBelow && !last;
    if strays(reference, device, pair) && !free && !hidden {
        return true;
    }
    if fault == VerdictFault::InconclusiveFails && trace_only && !last && other.may_stop() {
        return true;
    }
    if trace_only || free {
        return false;
    }
    let stops = other.may_stop() && fault != VerdictFault::DeviceStopSkipped;
    let unseen = fault == VerdictFault::StopBelowUnseen && !last;
    if stops && !row.may_stop() && !unseen {
        return true;
    }
    let looked = last || fault == VerdictFault::RefusalsBelow;
    if !looked || fault == VerdictFault::NoRefusals {
        return false;
    }
    let sets = other.acceptances().iter();
    let mut sets = sets.filter(|&&set| set != 0 || fault != VerdictFault::DeviceStopSkipped);
    match fault {
        VerdictFault::AcceptancesEqual => sets.any(|set| !row.acceptances().contains(set)),
        VerdictFault::FirstProbeOnly => {
            let first = probes(reference, pair.0).first().copied();
            first.is_some_and(|probe| sets.any(|set| set & probe == 0))
        }
        VerdictFault::DeviceStopSkipped => sets.any(|&set| {
            let mut inside = row.acceptances().iter();
            !inside.any(|small| small & !set == 0)
        }),
        _ => refuses(reference, device, pair),
    }
}
