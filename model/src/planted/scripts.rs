//! The count of scripts with a fault planted or none. It is worked from the last event to the
//! first: the counts for l events at each pair of nodes from those for l - 1.

use super::codes::{codes_differ, CodesFault};
use super::faults;
use crate::numbers::Scripts;
use crate::scripts::MAX_SCRIPT;
use crate::sheet::{accept, after, Sheet};

faults! {
    /// One planted fault of a count of scripts, or none.
    ScriptFault {
        /// The reference is asked first: an event that neither can do counts for the reference.
        ReferenceFirst,
        /// An event that neither can do counts nowhere.
        NeitherNowhere,
        /// The device stops and the reference stops are exchanged.
        Exchanged,
        /// The reference is taken for the device and the device for the reference.
        SheetsExchanged,
        /// The last event of the sheets is left out.
        OneEventShort,
        /// Scripts of one event less are counted.
        OneShorter,
        /// Scripts of one event more are counted.
        OneLonger,
        /// A stop counts E to the power of the whole length.
        PowerWhole,
        /// A stop counts E to the power of one more than the events left.
        PowerOneMore,
        /// A stop counts one script, however many events are left.
        StopCountsOne,
        /// A stop counts twelve to the power of the events left, whatever E is.
        PowerOfTwelve,
        /// Two events that lead to the same pair of nodes count once.
        WaysMerged,
        /// The counts for l are read while they are written over those for l - 1.
        OneTable,
        /// The rows of a table are one place too short, so that two pairs of nodes share a place.
        RowsOneShort,
        /// Walked is 0 for scripts of no events.
        WalkedAtZero,
        /// Every script that the device does not stop counts as walked too.
        StraysWalked,
        /// An event in no acceptance of the device's node counts as one that it cannot do.
        AcceptancesAsked,
        /// Where the device may stop, it stops every script.
        MayStopStops,
        /// The counts have 32 bits.
        Narrow,
        /// The power of E has 32 bits.
        NarrowPower,
        /// Walked alone has 32 bits.
        NarrowWalked,
        /// 20: 17 is accepted.
        LengthOneMore,
        /// 20: 16 is refused.
        LengthOneLess,
        /// 20: only the low byte of the length is looked at.
        LengthLowByte,
        /// 20 is looked for before 11.
        TwentyFirst,
        /// 20 is looked for before 19.
        TwentyBeforeNineteen,
        /// 20 is looked for before the sheets.
        TwentyBeforeSheets,
        /// 19 is looked for before 11.
        NineteenFirst,
        /// 19: unequal codes are accepted.
        CodesIgnored,
        /// 19: codes are compared as sets.
        CodesAsSets,
        /// 19: the code of the last event is not compared.
        LastCodeIgnored,
        /// 19: only the low bytes of codes are compared.
        CodesLowByte,
        /// The device is checked before the reference.
        DeviceFirst,
        /// 11 is not looked for where the reference has more events.
        ElevenOneWay,
        /// A refused count answers 1 for walked.
        RefusedCounts,
    }
}

/// The three counts of one pair: walked, device stops, reference stops.
type Three = [u64; 3];

/// The count of the scripts of `length` events, in numbers.
pub fn count_with(fault: ScriptFault, reference: &Sheet, device: &Sheet, length: u16) -> Scripts {
    if let Err(refusal) = admit(fault, reference, device, length) {
        return Scripts {
            refusal,
            walked: u64::from(fault == ScriptFault::RefusedCounts),
            device: 0,
            reference: 0,
        };
    }
    let (one, other) = match fault {
        ScriptFault::SheetsExchanged => (device, reference),
        _ => (reference, device),
    };
    let length = u32::from(match fault {
        ScriptFault::OneShorter => length.saturating_sub(1),
        ScriptFault::OneLonger => length + 1,
        ScriptFault::LengthLowByte => length % 256,
        _ => length,
    });
    let [walked, device_stops, reference_stops] =
        answered(fault, worked(fault, one, other, length), one.e, length);
    Scripts {
        refusal: 0,
        walked,
        device: device_stops,
        reference: reference_stops,
    }
}

/// The checks: the reference, the device, 11, 19, 20.
fn admit(fault: ScriptFault, reference: &Sheet, device: &Sheet, length: u16) -> Result<(), u8> {
    let test = |bad: bool, number: u8| if bad { Err(number) } else { Ok(()) };
    let long = match fault {
        ScriptFault::LengthOneMore => length > MAX_SCRIPT + 1,
        ScriptFault::LengthOneLess => length >= MAX_SCRIPT,
        ScriptFault::LengthLowByte => length % 256 > MAX_SCRIPT,
        _ => length > MAX_SCRIPT,
    };
    let long = test(long, 20);
    if fault == ScriptFault::TwentyBeforeSheets {
        long?;
    }
    if fault == ScriptFault::DeviceFirst {
        accept(device)?;
    }
    accept(reference)?;
    accept(device)?;
    let (e, f) = (reference.e, device.e);
    let one_way = fault == ScriptFault::ElevenOneWay && e > f;
    let events = test(e != f && !one_way, 11);
    let codes = test(codes_differ(codes_fault(fault), reference, device), 19);
    match fault {
        ScriptFault::TwentyFirst => long.and(events).and(codes),
        ScriptFault::TwentyBeforeNineteen => events.and(long).and(codes),
        ScriptFault::NineteenFirst => codes.and(events).and(long),
        _ => events.and(codes).and(long),
    }
}

/// The fault of the codes that a fault of the count is.
fn codes_fault(fault: ScriptFault) -> CodesFault {
    match fault {
        ScriptFault::CodesIgnored => CodesFault::Ignored,
        ScriptFault::CodesAsSets => CodesFault::AsSets,
        ScriptFault::LastCodeIgnored => CodesFault::LastIgnored,
        ScriptFault::CodesLowByte => CodesFault::LowByte,
        _ => CodesFault::None,
    }
}

/// The counts at the start, from a table for each length up to this one. What a fault makes too
/// large for 64 bits loses its high bits.
fn worked(fault: ScriptFault, reference: &Sheet, device: &Sheet, length: u32) -> Three {
    let (p, q) = (usize::from(reference.n), usize::from(device.n));
    let width = q - usize::from(fault == ScriptFault::RowsOneShort && q > 1);
    let walked = u64::from(length > 0 || fault != ScriptFault::WalkedAtZero);
    let mut table = vec![[walked, 0, 0]; p * q];
    for left in 0..length {
        let stop = power(fault, reference.e, left, length);
        let old = table.clone();
        for a in 0..p {
            for b in 0..q {
                let from = match fault {
                    ScriptFault::OneTable => &table,
                    _ => &old,
                };
                let three = at_pair(
                    fault,
                    (reference, device),
                    (a as u8, b as u8),
                    stop,
                    &|mine, theirs| from[usize::from(mine) * width + usize::from(theirs)],
                );
                table[a * width + b] = three;
            }
        }
    }
    table[0]
}

/// What a stop counts with so many events left after it.
fn power(fault: ScriptFault, e: u8, left: u32, length: u32) -> u64 {
    let e = u64::from(e);
    match fault {
        ScriptFault::PowerWhole => e.wrapping_pow(length),
        ScriptFault::PowerOneMore => e.wrapping_pow(left + 1),
        ScriptFault::StopCountsOne => 1,
        ScriptFault::PowerOfTwelve => 12u64.wrapping_pow(left),
        ScriptFault::NarrowPower => u64::from(e.wrapping_pow(left) as u32),
        _ => e.wrapping_pow(left),
    }
}

/// The counts at a pair: of each event what a stop counts, or the counts of the pair to which it
/// leads.
fn at_pair(
    fault: ScriptFault,
    (reference, device): (&Sheet, &Sheet),
    (a, b): (u8, u8),
    stop: u64,
    next: &dyn Fn(u8, u8) -> Three,
) -> Three {
    let mut sums = [0u64; 3];
    let mut met = Vec::new();
    let events = reference.e - u8::from(fault == ScriptFault::OneEventShort);
    for event in 0..events {
        let mine = after(reference, a, event);
        let theirs = after(device, b, event).filter(|_| does(fault, device, b, event));
        let more = match (mine, theirs) {
            (None, None) if fault == ScriptFault::ReferenceFirst => [0, 0, stop],
            (None, None) if fault == ScriptFault::NeitherNowhere => [0; 3],
            (_, None) => [0, stop, 0],
            (None, _) => [0, 0, stop],
            (Some(_), Some(_))
                if fault == ScriptFault::WaysMerged && met.contains(&(mine, theirs)) =>
            {
                [0; 3]
            }
            (Some(mine), Some(theirs)) => next(mine, theirs),
        };
        met.push((mine, theirs));
        for (sum, part) in sums.iter_mut().zip(more) {
            *sum = sum.wrapping_add(part);
        }
    }
    sums
}

/// Whether a device node can do one of its events.
fn does(fault: ScriptFault, device: &Sheet, node: u8, event: u8) -> bool {
    let row = device.row(node);
    match fault {
        ScriptFault::AcceptancesAsked => row.acceptances().iter().any(|set| set >> event & 1 == 1),
        ScriptFault::MayStopStops => !row.may_stop(),
        _ => true,
    }
}

/// What is answered of the counts at the start.
fn answered(fault: ScriptFault, three: Three, e: u8, length: u32) -> Three {
    let [walked, device, reference] = three;
    let low = |count: u64| u64::from(count as u32);
    match fault {
        ScriptFault::Exchanged => [walked, reference, device],
        ScriptFault::StraysWalked => [u64::from(e).pow(length) - device, device, reference],
        ScriptFault::Narrow => three.map(low),
        ScriptFault::NarrowWalked => [low(walked), device, reference],
        _ => three,
    }
}
