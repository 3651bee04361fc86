//! Comparisons with a fault planted.

use std::collections::{BTreeMap, BTreeSet};

use super::codes::{codes_differ, CodesFault};
use super::faults;
use super::probes::{found_with, ProbeFault};
use crate::comparison::{refuses, strays, Named, Outcome, WORDS_A_PAIR};
use crate::sheet::{accept, after, Sheet};

faults! {
    /// One planted fault of a comparison, or none.
    CompareFault {
        /// The search stops at depth p + q.
        DepthSum,
        /// The search stops at the larger number of nodes.
        DepthLarger,
        /// Acceptances are compared for equality.
        AcceptancesEqual,
        /// The empty acceptance of the reference is taken as "no rule here".
        EmptyIsNoRule,
        /// The empty acceptance of the device is skipped.
        DeviceStopSkipped,
        /// Every pair after the start is counted as good.
        LaterGood,
        /// Everything refines.
        AlwaysRefines,
        /// Cleared counts the pairs at distance d too.
        ClearedAtD,
        /// Cleared counts only the pairs at distance d - 1.
        ClearedLastLayer,
        /// The trace is the greatest by event number.
        GreatestTrace,
        /// A refusal is named before a stray.
        RefusalFirst,
        /// The largest stray is named.
        LargestStray,
        /// The last probe that is missed is named.
        LastProbe,
        /// The lowest probe that is missed is named.
        ByNumber,
        /// Of equally large probes that are missed the highest is named.
        HigherFirst,
        /// The first of the largest probes that are missed is named.
        LargestFirst,
        /// The lowest acceptance that misses a probe is named, with the first probe that it misses.
        AcceptanceFirst,
        /// The acceptance is one that misses the lowest probe that is missed.
        AcceptanceByNumber,
        /// The highest acceptance that misses the probe is named.
        HighestAcceptance,
        /// The probe and the acceptance are exchanged.
        NamesExchanged,
        /// The trace is one event short.
        TraceShort,
        /// The trace is written from its end on.
        TraceReversed,
        /// Nothing is written to the trace list.
        NothingWritten,
        /// The rest of the trace list is set to 0.
        RestCleared,
        /// The last word of the work list is left.
        WorkWordLeft,
        /// Later words of the work list are set to 0 too.
        WorkBeyond,
        /// Three words a pair are set to 0, as far as the work list goes.
        WorkThreeCleared,
        /// 12: an exact list is refused.
        WorkExactRefused,
        /// 12: a list one short is accepted.
        WorkShortAccepted,
        /// 12: three words a pair are asked for.
        WorkThreeAsked,
        /// 13: an exact list is refused.
        TraceExactRefused,
        /// 13: a list one short is accepted where the trace fits.
        TraceShortAccepted,
        /// 13 is looked for before 12.
        ThirteenFirst,
        /// 12 is looked for before 11.
        TwelveFirst,
        /// 19 is looked for before 11.
        NineteenFirst,
        /// 19 is looked for after 12.
        NineteenAfterTwelve,
        /// 19 is looked for after 13.
        NineteenAfterThirteen,
        /// 19: unequal codes are accepted.
        CodesIgnored,
        /// 19: unequal codes are accepted in a trace-only comparison.
        TracesCodesIgnored,
        /// 19: codes are compared as sets.
        CodesAsSets,
        /// 19: the code of the last event is not compared.
        LastCodeIgnored,
        /// 19: only the low bytes of codes are compared.
        CodesLowByte,
        /// A refusal sets the work list to 0.
        RefusalClears,
        /// The device is checked before the reference.
        DeviceFirst,
        /// A trace-only comparison counts refusals.
        TracesIgnored,
        /// Every comparison is trace-only.
        TracesAlways,
    }
}

/// The comparison on two lent lists.
pub fn compare_with(
    fault: CompareFault,
    reference: &Sheet,
    device: &Sheet,
    trace_only: bool,
    work: &mut [u16],
    list: &mut [u8],
) -> Result<Outcome, u8> {
    let lengths = (work.len(), list.len());
    let admitted = admit(fault, reference, device, trace_only, lengths);
    if fault == CompareFault::RefusalClears && admitted.is_err() {
        work.fill(0);
    }
    admitted?;
    let trace_only = match fault {
        CompareFault::TracesIgnored => false,
        CompareFault::TracesAlways => true,
        _ => trace_only,
    };
    let outcome = Search {
        fault,
        reference,
        device,
        trace_only,
    }
    .outcome();
    let pairs = reference.n as usize * device.n as usize;
    let cleared = cleared_words(fault, pairs).min(work.len());
    work[..cleared].fill(0);
    if let Outcome::Violates { trace, .. } = &outcome {
        write(fault, trace, list);
    }
    Ok(outcome)
}

/// How many words from the front of the work list are set to 0, as far as it goes.
fn cleared_words(fault: CompareFault, pairs: usize) -> usize {
    match fault {
        CompareFault::WorkWordLeft => WORDS_A_PAIR * pairs - 1,
        CompareFault::WorkThreeCleared => 3 * pairs,
        CompareFault::WorkBeyond => usize::MAX,
        _ => WORDS_A_PAIR * pairs,
    }
}

fn write(fault: CompareFault, trace: &[u8], list: &mut [u8]) {
    let mut events = trace.to_vec();
    match fault {
        CompareFault::NothingWritten => events.clear(),
        CompareFault::TraceShort => {
            events.pop();
        }
        CompareFault::TraceReversed => events.reverse(),
        _ => {}
    }
    for (place, event) in list.iter_mut().zip(&events) {
        *place = *event;
    }
    if fault == CompareFault::RestCleared {
        let start = events.len().min(list.len());
        list[start..].fill(0);
    }
}

fn admit(
    fault: CompareFault,
    reference: &Sheet,
    device: &Sheet,
    trace_only: bool,
    (work, list): (usize, usize),
) -> Result<(), u8> {
    if fault == CompareFault::DeviceFirst {
        accept(device)?;
    }
    accept(reference)?;
    accept(device)?;
    let pairs = reference.n as usize * device.n as usize;
    let test = |bad: bool, number: u8| if bad { Err(number) } else { Ok(()) };
    let events = test(reference.e != device.e, 11);
    let looked = codes_fault(fault, trace_only);
    let codes = test(codes_differ(looked, reference, device), 19);
    let words = match fault {
        CompareFault::WorkExactRefused => work <= WORDS_A_PAIR * pairs,
        CompareFault::WorkShortAccepted => work + 1 < WORDS_A_PAIR * pairs,
        CompareFault::WorkThreeAsked => work < 3 * pairs,
        _ => work < WORDS_A_PAIR * pairs,
    };
    let words = test(words, 12);
    let places = match fault {
        CompareFault::TraceExactRefused => list < pairs,
        CompareFault::TraceShortAccepted => list + 2 < pairs,
        _ => list + 1 < pairs,
    };
    let places = test(places, 13);
    match fault {
        CompareFault::ThirteenFirst => events.and(codes).and(places).and(words),
        CompareFault::TwelveFirst => words.and(events).and(codes).and(places),
        CompareFault::NineteenFirst => codes.and(events).and(words).and(places),
        CompareFault::NineteenAfterTwelve => events.and(words).and(codes).and(places),
        CompareFault::NineteenAfterThirteen => events.and(words).and(places).and(codes),
        _ => events.and(codes).and(words).and(places),
    }
}

/// The fault of the codes that a fault of the comparison is.
fn codes_fault(fault: CompareFault, trace_only: bool) -> CodesFault {
    match fault {
        CompareFault::CodesIgnored => CodesFault::Ignored,
        CompareFault::TracesCodesIgnored if trace_only => CodesFault::Ignored,
        CompareFault::CodesAsSets => CodesFault::AsSets,
        CompareFault::LastCodeIgnored => CodesFault::LastIgnored,
        CompareFault::CodesLowByte => CodesFault::LowByte,
        _ => CodesFault::None,
    }
}

/// A search for the nearest violation.
struct Search<'a> {
    fault: CompareFault,
    reference: &'a Sheet,
    device: &'a Sheet,
    trace_only: bool,
}

type Layer = BTreeMap<(u8, u8), Vec<u8>>;

impl Search<'_> {
    fn outcome(&self) -> Outcome {
        let (p, q) = (self.reference.n as usize, self.device.n as usize);
        let deepest = match self.fault {
            CompareFault::DepthSum => p + q,
            CompareFault::DepthLarger => p.max(q),
            CompareFault::LaterGood => 0,
            _ => p * q,
        };
        let mut nearer: BTreeSet<(u8, u8)> = BTreeSet::new();
        let mut layer: Layer = BTreeMap::from([((0, 0), Vec::new())]);
        let mut depth = 0;
        let mut before = 0;
        while !layer.is_empty() {
            let bad = layer.iter().filter(|(&pair, _)| self.violating(pair));
            let found = match self.fault {
                CompareFault::GreatestTrace => bad.max_by_key(|(_, trace)| *trace),
                _ => bad.min_by_key(|(_, trace)| *trace),
            };
            let looked = depth <= deepest && self.fault != CompareFault::AlwaysRefines;
            if let (Some((&pair, trace)), true) = (found, looked) {
                let cleared = match self.fault {
                    CompareFault::ClearedAtD => nearer.len() + layer.len(),
                    CompareFault::ClearedLastLayer => before,
                    _ => nearer.len(),
                };
                return Outcome::Violates {
                    d: depth as u16,
                    cleared: cleared as u16,
                    trace: trace.clone(),
                    named: self.name(pair),
                };
            }
            before = layer.len();
            nearer.extend(layer.keys());
            layer = self.next(&layer, &nearer);
            depth += 1;
        }
        Outcome::Refines {
            cleared: nearer.len() as u16,
        }
    }

    fn violating(&self, pair: (u8, u8)) -> bool {
        let (row, other) = (self.reference.row(pair.0), self.device.row(pair.1));
        let free = self.fault == CompareFault::EmptyIsNoRule && row.may_stop();
        if strays(self.reference, self.device, pair) && !free {
            return true;
        }
        if self.trace_only {
            return false;
        }
        let mut sets = other.acceptances().iter();
        match self.fault {
            CompareFault::AcceptancesEqual => sets.any(|set| !row.acceptances().contains(set)),
            CompareFault::DeviceStopSkipped if other.may_stop() => false,
            _ => refuses(self.reference, self.device, pair),
        }
    }

    fn next(&self, layer: &Layer, nearer: &BTreeSet<(u8, u8)>) -> Layer {
        let mut next = Layer::new();
        for (&(a, b), trace) in layer {
            for event in 0..self.reference.e {
                let steps = (
                    after(self.reference, a, event),
                    after(self.device, b, event),
                );
                let (Some(a_next), Some(b_next)) = steps else {
                    continue;
                };
                if nearer.contains(&(a_next, b_next)) {
                    continue;
                }
                let longer = [&trace[..], &[event]].concat();
                let kept = next
                    .entry((a_next, b_next))
                    .or_insert_with(|| longer.clone());
                let better = match self.fault {
                    CompareFault::GreatestTrace => longer > *kept,
                    _ => longer < *kept,
                };
                if better {
                    *kept = longer;
                }
            }
        }
        next
    }

    fn name(&self, pair: (u8, u8)) -> Named {
        let outside = self.device.initials(pair.1) & !self.reference.initials(pair.0);
        let refused = self.refused(pair);
        match (outside, refused) {
            (0, Some(named)) => named,
            (0, None) => Named::Refused {
                probe: 0,
                acceptance: 0,
            },
            (_, Some(named)) if self.fault == CompareFault::RefusalFirst => named,
            _ if self.fault == CompareFault::LargestStray => {
                Named::Stray(15 - outside.leading_zeros() as u8)
            }
            _ => Named::Stray(outside.trailing_zeros() as u8),
        }
    }

    fn refused(&self, pair: (u8, u8)) -> Option<Named> {
        let row = self.device.row(pair.1);
        let mut list = found_with(list_fault(self.fault), self.reference, pair.0);
        list.retain(|&probe| row.may_refuse(probe));
        let missing = |probe: u16| {
            let sets = row.acceptances().iter().copied();
            sets.filter(move |set| set & probe == 0)
        };
        let probe = match self.fault {
            CompareFault::LastProbe => *list.last()?,
            CompareFault::AcceptanceFirst => {
                let lowest = list
                    .iter()
                    .filter_map(|&probe| missing(probe).min())
                    .min()?;
                *list.iter().find(|&probe| probe & lowest == 0)?
            }
            _ => *list.first()?,
        };
        let acceptance = match self.fault {
            CompareFault::HighestAcceptance => missing(probe).max()?,
            CompareFault::AcceptanceByNumber => missing(*list.iter().min()?).min()?,
            _ => missing(probe).min()?,
        };
        Some(match self.fault {
            CompareFault::NamesExchanged => Named::Refused {
                probe: acceptance,
                acceptance: probe,
            },
            _ => Named::Refused { probe, acceptance },
        })
    }
}

/// The fault of the probe list that a fault of the comparison is.
fn list_fault(fault: CompareFault) -> ProbeFault {
    match fault {
        CompareFault::ByNumber => ProbeFault::ByNumber,
        CompareFault::HigherFirst => ProbeFault::HigherFirst,
        CompareFault::LargestFirst => ProbeFault::LargestFirst,
        _ => ProbeFault::None,
    }
}
