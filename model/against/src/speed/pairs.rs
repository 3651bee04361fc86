//! Verdicts and comparisons over flat tables.

use model::comparison::WORDS_A_PAIR;
use model::numbers::{Compared, Judged, Suited, PASSES, REFINES, REFUSAL, STRAY};
use model::sheet::{MAX_EVENTS, MAX_NODES, NO_NODE};

use super::runs::first_missed;
use super::tables::{check, Tables};

/// The successor of each device node as a bit, 0 for none: one word for each event and node.
type Bits = [[u32; MAX_NODES]; MAX_EVENTS];

/// A set of pairs: for each reference node a bit for each device node.
type Layer = [u32; MAX_NODES];

/// The refusals of two sheets handed together: the reference's, the device's, 11, 19.
pub(super) fn pair_fault(reference: &Tables, device: &Tables) -> u8 {
    match (check(reference), check(device)) {
        (0, 0) if reference.e != device.e => 11,
        (0, 0) => u8::from(reference.codes() != device.codes()) * 19,
        (0, number) | (number, _) => number,
    }
}

/// Whether some device acceptance includes none of the reference's.
fn refuses(mine: &[u16], theirs: &[u16]) -> bool {
    let covered = |&set: &u16| mine.iter().any(|&small| small & !set == 0);
    !theirs.iter().all(covered)
}

/// Where a test fails before its last event, and where at its last, for one reference node.
fn failing(reference: &Tables, device: &Tables, v: usize, traces: bool) -> (u32, u32) {
    let initials = reference.initials(v);
    let (sets, stops) = (reference.acceptances(v), reference.may_stop(v));
    let (mut early, mut late) = (0u32, 0u32);
    for w in 0..device.n as usize {
        let stray = device.initials(w) & !initials != 0;
        let stop = !traces && !stops && device.may_stop(w);
        let refused = !traces && refuses(sets, device.acceptances(w));
        early |= u32::from(stray || stop) << w;
        late |= u32::from(stray || refused) << w;
    }
    (early, late)
}

/// The successor bits of a device.
fn bits_of(device: &Tables) -> Bits {
    let mut bits = [[0; MAX_NODES]; MAX_EVENTS];
    for w in 0..device.n as usize {
        for (i, &next) in device.row(w).iter().enumerate() {
            bits[i][w] = if next == NO_NODE { 0 } else { 1 << next };
        }
    }
    bits
}

/// The pairs to which one event leads from the pairs of a layer.
fn next_layer(reference: &Tables, bits: &Bits, layer: &Layer) -> Layer {
    let mut next = [0; MAX_NODES];
    for v in 0..reference.n as usize {
        if layer[v] == 0 {
            continue;
        }
        for (i, &to) in reference.row(v).iter().enumerate() {
            if to != NO_NODE {
                next[to as usize] |= image(&bits[i], layer[v]);
            }
        }
    }
    next
}

/// Where one event leads from a set of device nodes.
fn image(bits: &[u32; MAX_NODES], mut from: u32) -> u32 {
    let mut set = 0;
    while from != 0 {
        set |= bits[from.trailing_zeros() as usize];
        from &= from - 1;
    }
    set
}

/// The verdict on a device.
pub fn judge(reference: &Tables, device: &Tables, k: u16, traces: u8) -> Judged {
    let refusal = match pair_fault(reference, device) {
        0 if k > 1_023 => 14,
        number => number,
    };
    let kind = match refusal {
        0 => PASSES + u8::from(fails(reference, device, k, traces != 0)),
        _ => 0,
    };
    Judged { refusal, kind }
}

/// The verdicts on all tests of a device, into a lent list.
pub fn judge_all(reference: &Tables, device: &Tables, traces: u8, out: &mut [u8]) -> Suited {
    let tests = reference.n as usize * device.n as usize;
    let refusal = match pair_fault(reference, device) {
        0 if out.len() < tests => 10,
        number => number,
    };
    if refusal != 0 {
        return Suited { refusal, count: 0 };
    }
    let (early, late) = words(reference, device, traces != 0);
    let bits = bits_of(device);
    let mut layer = start();
    let mut failed = false;
    for place in &mut out[..tests] {
        *place = PASSES + u8::from(failed || hit(&layer, &late));
        failed |= hit(&layer, &early);
        layer = next_layer(reference, &bits, &layer);
    }
    Suited {
        refusal: 0,
        count: tests as u16,
    }
}

/// At which pairs a test fails before its last event, and at its last.
fn words(reference: &Tables, device: &Tables, traces: bool) -> (Layer, Layer) {
    let (mut early, mut late) = ([0; MAX_NODES], [0; MAX_NODES]);
    for v in 0..reference.n as usize {
        (early[v], late[v]) = failing(reference, device, v, traces);
    }
    (early, late)
}

/// Whether a layer has one of these pairs.
fn hit(layer: &Layer, words: &Layer) -> bool {
    layer.iter().zip(words).any(|(a, b)| a & b != 0)
}

/// The layer of the start alone.
fn start() -> Layer {
    let mut layer = [0; MAX_NODES];
    layer[0] = 1;
    layer
}

/// Whether a device fails test k: layer after layer of pairs.
fn fails(reference: &Tables, device: &Tables, k: u16, traces: bool) -> bool {
    let (early, late) = words(reference, device, traces);
    let bits = bits_of(device);
    let mut layer = start();
    for _ in 0..k {
        if hit(&layer, &early) {
            return true;
        }
        layer = next_layer(reference, &bits, &layer);
    }
    hit(&layer, &late)
}

/// A search over pairs coded q v + w: the pairs reached, in order, how each was first reached
/// (the place of the pair before it and the event) and how far it is.
struct Search {
    queue: [u16; 1_024],
    from: [u16; 1_024],
    event: [u8; 1_024],
    distance: [u16; 1_024],
    seen: [bool; 1_024],
    tail: usize,
}

impl Search {
    /// A search at its start.
    fn new() -> Search {
        let mut search = Search {
            queue: [0; 1_024],
            from: [0; 1_024],
            event: [0; 1_024],
            distance: [0; 1_024],
            seen: [false; 1_024],
            tail: 1,
        };
        search.seen[0] = true;
        search
    }

    /// Adds the pairs to which one event leads from the pair at a place of the queue.
    fn expand(&mut self, reference: &Tables, device: &Tables, place: usize) {
        let q = device.n as usize;
        let code = self.queue[place] as usize;
        let steps = reference.row(code / q).iter().zip(device.row(code % q));
        for (event, (&a, &b)) in steps.enumerate() {
            if a == NO_NODE || b == NO_NODE {
                continue;
            }
            let next = a as usize * q + b as usize;
            if !self.seen[next] {
                self.seen[next] = true;
                self.queue[self.tail] = next as u16;
                self.from[self.tail] = place as u16;
                self.event[self.tail] = event as u8;
                self.distance[self.tail] = self.distance[place] + 1;
                self.tail += 1;
            }
        }
    }

    /// Writes the events that lead to a place.
    fn write(&self, mut place: usize, trace: &mut [u8]) {
        for at in trace[..self.distance[place] as usize].iter_mut().rev() {
            *at = self.event[place];
            place = self.from[place] as usize;
        }
    }
}

/// Compares a device with a reference.
pub fn compare(
    reference: &Tables,
    device: &Tables,
    traces: u8,
    work: &mut [u16],
    trace: &mut [u8],
) -> Compared {
    let pairs = reference.n as usize * device.n as usize;
    let refusal = match pair_fault(reference, device) {
        0 if work.len() < WORDS_A_PAIR * pairs => 12,
        0 if trace.len() + 1 < pairs => 13,
        number => number,
    };
    if refusal != 0 {
        return answer(refusal, 0, 0, 0);
    }
    work[..WORDS_A_PAIR * pairs].fill(0);
    let mine: [u16; MAX_NODES] = initials(reference);
    let theirs: [u16; MAX_NODES] = initials(device);
    let mut search = Search::new();
    let mut head = 0;
    while head < search.tail {
        let code = search.queue[head] as usize;
        let (v, w) = (code / device.n as usize, code % device.n as usize);
        let outside = theirs[w] & !mine[v];
        let (sets, others) = (reference.acceptances(v), device.acceptances(w));
        if outside != 0 || traces == 0 && refuses(sets, others) {
            search.write(head, trace);
            return named(&search, head, outside, || {
                first_missed(sets, device.e, others)
            });
        }
        search.expand(reference, device, head);
        head += 1;
    }
    answer(0, REFINES, 0, head)
}

/// The initials of every node.
fn initials(tables: &Tables) -> [u16; MAX_NODES] {
    let mut sets = [0; MAX_NODES];
    for (v, set) in sets[..tables.n as usize].iter_mut().enumerate() {
        *set = tables.initials(v);
    }
    sets
}

/// The violation at a place of the queue: the smallest stray, else what is missed.
fn named(search: &Search, place: usize, outside: u16, missed: impl Fn() -> (u16, u16)) -> Compared {
    let d = search.distance[place];
    let cleared = search.distance[..place].partition_point(|&near| near < d);
    if outside != 0 {
        let event = outside.trailing_zeros() as u8;
        return Compared {
            event,
            ..answer(0, STRAY, d, cleared)
        };
    }
    let (probe, acceptance) = missed();
    Compared {
        probe,
        acceptance,
        ..answer(0, REFUSAL, d, cleared)
    }
}

/// An answer that names nothing.
fn answer(refusal: u8, kind: u8, d: u16, cleared: usize) -> Compared {
    Compared {
        refusal,
        kind,
        d,
        cleared: cleared as u16,
        event: 0,
        probe: 0,
        acceptance: 0,
    }
}
