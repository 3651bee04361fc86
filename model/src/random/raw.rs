//! Random sheets of every size, in a raw form without bounds.

use super::codes::random_codes;
use super::Rng;
use crate::sheet::{first_codes, Sheet, MAX_EVENTS, MAX_NODES, MAX_SETS, NO_NODE};

/// A sheet before it is put into bytes or kept: its version, the codes of its events, which
/// version 1 does not spell, and successors and sets of each node. It can be larger than any
/// accepted sheet.
#[derive(Clone, PartialEq, Eq, Debug)]
pub struct Raw {
    pub version: u8,
    pub e: u8,
    pub codes: Vec<u16>,
    pub nodes: Vec<(Vec<u8>, Vec<u16>)>,
}

impl Raw {
    /// A version 1 sheet.
    pub fn new(e: u8, nodes: Vec<(Vec<u8>, Vec<u16>)>) -> Raw {
        Raw {
            version: 1,
            e,
            codes: first_codes(e),
            nodes,
        }
    }

    /// The sheet's bytes, with a right length field.
    pub fn bytes(&self) -> Vec<u8> {
        let mut bytes = vec![0, 0, 0, 0, self.version, self.e, self.nodes.len() as u8];
        if self.version == 2 {
            bytes.extend(self.codes.iter().flat_map(|code| code.to_be_bytes()));
        }
        for (succ, sets) in &self.nodes {
            bytes.extend_from_slice(succ);
            bytes.push(sets.len() as u8);
            for set in sets {
                bytes.extend_from_slice(&set.to_be_bytes());
            }
        }
        let follow = (bytes.len() - 4) as u32;
        bytes[..4].copy_from_slice(&follow.to_be_bytes());
        bytes
    }

    /// Where the nodes begin in the bytes.
    pub fn nodes_at(&self) -> usize {
        match self.version {
            2 => 7 + 2 * self.codes.len(),
            _ => 7,
        }
    }

    /// The kept sheet, as far as it has places.
    pub fn keep(&self) -> Sheet {
        Sheet::build(self.e, &self.nodes).with_codes(&self.codes)
    }

    /// The initials of a node.
    pub fn initials(&self, node: usize) -> u16 {
        let succ = &self.nodes[node].0;
        (0..succ.len())
            .filter(|&event| succ[event] != NO_NODE)
            .fold(0, |set, event| set | 1 << event)
    }

    /// Numbers the nodes anew: node i becomes `names[i]`; node 0 keeps its number.
    pub fn rename(&mut self, names: &[u8]) {
        let mut renamed = self.nodes.clone();
        for (node, (succ, sets)) in self.nodes.iter().enumerate() {
            let target = |&next: &u8| names.get(next as usize).copied().unwrap_or(next);
            renamed[names[node] as usize] = (succ.iter().map(target).collect(), sets.clone());
        }
        self.nodes = renamed;
    }

    /// Numbers all nodes but node 0 anew at random.
    pub fn rename_at_random(&mut self, rng: &mut Rng) {
        let mut names: Vec<u8> = (0..self.nodes.len() as u8).collect();
        rng.shuffle(&mut names[1..]);
        self.rename(&names);
    }
}

/// A random good sheet of `e` events and `n` nodes. With e and n in range it is an
/// accepted one; beyond the ranges only the ranges are broken (n up to 254, e up to 15).
pub fn random_raw(rng: &mut Rng, e: usize, n: usize) -> Raw {
    let mut raw = Raw::new(e as u8, vec![(vec![NO_NODE; e], Vec::new()); n]);
    (raw.version, raw.codes) = random_codes(rng, e);
    plant_tree(rng, &mut raw);
    let density = rng.below(9);
    for (succ, _) in raw.nodes.iter_mut() {
        for place in succ.iter_mut().filter(|place| **place == NO_NODE) {
            if rng.below(9) < density {
                *place = rng.below(n) as u8;
            }
        }
    }
    if !rng.one_in(3) {
        raw.rename_at_random(rng);
    }
    for node in 0..n {
        raw.nodes[node].1 = antichain(rng, raw.initials(node), MAX_SETS);
    }
    raw
}

/// Edges that reach every node: each node but the first hangs on one before it that has
/// a free event. In one of three sheets that is the newest, which gives long chains.
fn plant_tree(rng: &mut Rng, raw: &mut Raw) {
    let chain = rng.one_in(3);
    for node in 1..raw.nodes.len() {
        let free = |parent: &usize| raw.nodes[*parent].0.contains(&NO_NODE);
        let parents: Vec<usize> = (0..node).filter(free).collect();
        let parent = if chain {
            parents[parents.len() - 1]
        } else {
            rng.pick(&parents)
        };
        let succ = &mut raw.nodes[parent].0;
        let events: Vec<usize> = (0..succ.len()).filter(|&i| succ[i] == NO_NODE).collect();
        succ[rng.pick(&events)] = node as u8;
    }
}

/// A random ascending antichain of at most `most` sets inside the initials, or the
/// single empty set.
pub fn antichain(rng: &mut Rng, initials: u16, most: usize) -> Vec<u16> {
    if initials == 0 || rng.one_in(6) {
        return vec![0];
    }
    let events: Vec<u16> = (0..16).filter(|event| initials >> event & 1 == 1).collect();
    let size = match rng.below(4) {
        0 => return vec![initials],
        1 => None,
        2 => Some(events.len().div_ceil(2)),
        _ => Some(rng.range(1, events.len())),
    };
    let count = if rng.one_in(4) {
        most
    } else {
        rng.range(1, most)
    };
    let mut sets: Vec<u16> = Vec::new();
    for _ in 0..12 * count {
        let set = random_set(rng, &events, size);
        if sets.len() < count && sets.iter().all(|&old| apart(old, set)) {
            sets.push(set);
        }
    }
    sets.sort_unstable();
    sets
}

/// A random non-empty set of some events, of the size asked for if one is.
fn random_set(rng: &mut Rng, events: &[u16], size: Option<usize>) -> u16 {
    let size = size.unwrap_or_else(|| rng.range(1, events.len()));
    let mut order = events.to_vec();
    rng.shuffle(&mut order);
    order[..size].iter().fold(0, |set, event| set | 1 << event)
}

fn apart(a: u16, b: u16) -> bool {
    a & !b != 0 && b & !a != 0
}

/// A random accepted sheet; one in three has 16 nodes or more.
pub fn random_sheet(rng: &mut Rng) -> Sheet {
    let e = rng.range(1, MAX_EVENTS);
    let n = random_nodes(rng);
    sheet_of_size(rng, e, n)
}

/// A random accepted sheet with a successor in every place and 16 sets at every node.
/// One in four is as large as a sheet can be.
pub fn full_sheet(rng: &mut Rng) -> Sheet {
    let (e, n) = if rng.one_in(4) {
        (MAX_EVENTS, MAX_NODES)
    } else {
        (rng.range(6, MAX_EVENTS), random_nodes(rng))
    };
    let mut raw = random_raw(rng, e, n);
    let half = |set: &u16| set.count_ones() as usize == e / 2;
    let mut level: Vec<u16> = (0..1 << e).filter(half).collect();
    for (succ, sets) in raw.nodes.iter_mut() {
        for place in succ.iter_mut().filter(|place| **place == NO_NODE) {
            *place = rng.below(n) as u8;
        }
        rng.shuffle(&mut level);
        *sets = level[..MAX_SETS].to_vec();
        sets.sort_unstable();
    }
    raw.keep()
}

/// A random accepted sheet with up to three nodes that have many probes: all 12 events in
/// three blocks of four, and as sets the threes inside each block, so that a probe has two
/// events of each block; or some other threes beside them.
pub fn crowded_sheet(rng: &mut Rng) -> Sheet {
    let n = rng.range(1, 3);
    let mut raw = random_raw(rng, MAX_EVENTS, n);
    for (succ, sets) in raw.nodes.iter_mut() {
        for place in succ.iter_mut().filter(|place| **place == NO_NODE) {
            *place = rng.below(n) as u8;
        }
        let mut events: Vec<u16> = (0..MAX_EVENTS as u16).collect();
        rng.shuffle(&mut events);
        let without = |left: usize| move |(place, _): &(usize, &u16)| *place != left;
        let three = |block: &[u16], left: usize| {
            let kept = block.iter().enumerate().filter(without(left));
            kept.fold(0u16, |set, (_, event)| set | 1 << event)
        };
        let blocks = events.chunks(4);
        *sets = blocks
            .flat_map(|block| (0..4).map(move |left| three(block, left)))
            .collect();
        for _ in 0..rng.below(5) {
            sets.push(random_set(rng, &events, Some(3)));
        }
        sets.sort_unstable();
        sets.dedup();
    }
    raw.keep()
}

/// A random sheet with up to six nodes and most events at each, where probes have different sizes,
/// so that their order shows.
pub fn mixed_raw(rng: &mut Rng) -> Raw {
    let (e, n) = (rng.range(3, MAX_EVENTS), rng.range(1, 6));
    let mut raw = random_raw(rng, e, n);
    for (succ, _) in raw.nodes.iter_mut() {
        for place in succ.iter_mut().filter(|place| **place == NO_NODE) {
            if !rng.one_in(6) {
                *place = rng.below(n) as u8;
            }
        }
    }
    for node in 0..n {
        raw.nodes[node].1 = mixed_sets(rng, raw.initials(node));
    }
    raw
}

/// The same as a kept sheet, which is accepted.
pub fn mixed_sheet(rng: &mut Rng) -> Sheet {
    mixed_raw(rng).keep()
}

/// The initials in up to three blocks, and as sets the pairs of one event of each block with the
/// others: a probe has of each block that one event or all the others. At times a larger set more.
fn mixed_sets(rng: &mut Rng, initials: u16) -> Vec<u16> {
    let mut events: Vec<u16> = (0..16).filter(|event| initials >> event & 1 == 1).collect();
    if events.len() < 2 {
        return vec![initials];
    }
    rng.shuffle(&mut events);
    let blocks = rng.range(1, events.len().min(7) / 2);
    let pair = |(place, event): (usize, &u16)| {
        let block = place % blocks;
        (place >= blocks).then(|| 1 << events[block] | 1 << event)
    };
    let mut sets: Vec<u16> = events.iter().enumerate().filter_map(pair).collect();
    let larger = random_set(rng, &events, Some(events.len().min(3)));
    if sets.iter().all(|&set| apart(set, larger)) {
        sets.push(larger);
    }
    sets.sort_unstable();
    sets
}

/// A random number of nodes, one in three times 16 or more.
pub fn random_nodes(rng: &mut Rng) -> usize {
    match rng.below(3) {
        0 => rng.range(16, MAX_NODES),
        1 => rng.range(4, 15),
        _ => rng.range(1, 6),
    }
}

/// A random accepted sheet of a given size.
pub fn sheet_of_size(rng: &mut Rng, e: usize, n: usize) -> Sheet {
    random_raw(rng, e, n).keep()
}
