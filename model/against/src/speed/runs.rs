//! Probes and runs over flat tables.

use std::iter::successors;

use model::numbers::{Listed, Record, Said, Stepped};
use model::sheet::NO_NODE;

use super::tables::{check, Tables};

/// The most probes that 12 events allow: none includes another (001, by Sperner).
const MOST: usize = 924;

/// The probes of a node, by how many events a probe has, then by number.
struct Probes {
    found: [u16; MOST],
    count: usize,
}

/// Whether a set meets every acceptance, and each of its events is alone in the meeting with
/// one of them.
fn is_probe(sets: &[u16], x: u16) -> bool {
    let mut own = 0;
    for &set in sets {
        let both = set & x;
        if both == 0 {
            return false;
        }
        if both & (both - 1) == 0 {
            own |= both;
        }
    }
    own == x
}

/// Every set of E events, by how many events it has, then by number.
fn by_size(e: u8) -> impl Iterator<Item = u16> {
    let limit = 1u32 << e;
    let of_size = move |size: u8| {
        let lowest = (1u32 << size) - 1;
        successors(Some(lowest), move |&x| next_of_size(x, limit))
    };
    (0..=e).flat_map(of_size).map(|x| x as u16)
}

/// The next number with as many ones: the lowest block of ones loses its highest, which moves one
/// place up, and the others go to the lowest places.
fn next_of_size(x: u32, limit: u32) -> Option<u32> {
    let lowest = x & x.wrapping_neg();
    let carried = x + lowest;
    let next = carried | (x ^ carried) >> 2 >> lowest.trailing_zeros();
    (x != 0 && next < limit).then_some(next)
}

/// Every set of E events is tried, once.
fn probes(sets: &[u16], e: u8) -> Probes {
    let mut list = Probes {
        found: [0; MOST],
        count: 0,
    };
    for x in by_size(e) {
        if is_probe(sets, x) {
            list.found[list.count] = x;
            list.count += 1;
        }
    }
    list
}

/// The probes of some acceptances.
pub fn probes_of(sets: &[u16], e: u8) -> Vec<u16> {
    let list = probes(sets, e);
    list.found[..list.count].to_vec()
}

/// The first probe that a device acceptance misses, with the lowest such acceptance.
pub fn first_missed(sets: &[u16], e: u8, device: &[u16]) -> (u16, u16) {
    let list = by_size(e).filter(|&x| is_probe(sets, x));
    let missed = |x: u16| {
        device
            .iter()
            .find(|&&set| set & x == 0)
            .map(|&set| (x, set))
    };
    list.filter_map(missed).next().unwrap_or((0, 0))
}

/// Writes the probes of a node to a lent list.
pub fn list(tables: &Tables, node: u8, out: &mut [u16]) -> Listed {
    let refused = |refusal| Listed { refusal, count: 0 };
    let number = check(tables);
    if number != 0 {
        return refused(number);
    }
    if node >= tables.n {
        return refused(9);
    }
    let list = probes(tables.acceptances(node as usize), tables.e);
    if out.len() < list.count {
        return refused(10);
    }
    out[..list.count].copy_from_slice(&list.found[..list.count]);
    Listed {
        refusal: 0,
        count: list.count as u16,
    }
}

/// What a run offers.
fn offer(tables: &Tables, run: &Record) -> u16 {
    if run.traces != 0 || run.depth < run.k {
        return tables.all_events();
    }
    let v = run.node as usize;
    let outside = tables.all_events() & !tables.initials(v);
    let list = probes(tables.acceptances(v), tables.e);
    match list.count {
        0 => outside,
        m => list.found[run.h as usize % m] | outside,
    }
}

/// An answer in numbers.
fn said(refusal: u8, kind: u8, value: u16) -> Said {
    Said {
        refusal,
        kind,
        value,
    }
}

/// Opens a test.
pub fn open(tables: &Tables, k: u16, h: u16, traces: u8) -> Stepped {
    let mut run = Record::ZERO;
    let number = match check(tables) {
        0 if k > 1_023 => 14,
        number => number,
    };
    if number != 0 {
        let answer = said(number, 0, 0);
        return Stepped { answer, run };
    }
    (run.k, run.h, run.traces) = (k, h, u8::from(traces != 0));
    let answer = said(0, 1, offer(tables, &run));
    Stepped { answer, run }
}

/// 16 and 9 of a record, 0 for none.
fn record_fault(tables: &Tables, run: &Record) -> u8 {
    if run.ended != 0 {
        return 16;
    }
    let bad = run.node >= tables.n || run.depth > run.k || run.k > 1_023;
    u8::from(bad) * 9
}

/// Answers a report on the record in place.
pub fn report(run: &mut Record, tables: &Tables, code: u16) -> Said {
    let number = match check(tables) {
        0 => record_fault(tables, run),
        number => number,
    };
    if number != 0 {
        return said(number, 0, 0);
    }
    if code < 256 {
        return on_event(run, tables, code);
    }
    run.ended = 1;
    if run.traces != 0 {
        said(0, 4 + u8::from(run.depth < run.k), 0)
    } else if tables.may_stop(run.node as usize) {
        said(0, 4, 0)
    } else {
        said(0, 3, offer(tables, run))
    }
}

/// Answers an event.
fn on_event(run: &mut Record, tables: &Tables, event: u16) -> Said {
    if event >= u16::from(tables.e) {
        return said(15, 0, 0);
    }
    if offer(tables, run) >> event & 1 == 0 {
        return said(17, 0, 0);
    }
    let next = tables.row(run.node as usize)[event as usize];
    if next == NO_NODE {
        run.ended = 1;
        return said(0, 2, event);
    }
    if run.depth == run.k {
        run.ended = 1;
        return said(0, 4, 0);
    }
    run.node = next;
    run.depth += 1;
    said(0, 1, offer(tables, run))
}

/// Answers a report on a record by value.
pub fn step(tables: &Tables, run: &Record, code: u16) -> Stepped {
    let mut run = *run;
    let answer = report(&mut run, tables, code);
    Stepped { answer, run }
}
