//! Random pairs of sheets with equal E and equal codes: unrelated, equal, and devices drawn from
//! their reference with or without a planted violation, so that far violations occur.

use super::codes::random_codes;
use super::raw::{antichain, mixed_raw, random_nodes, random_raw, Raw};
use super::Rng;
use crate::probes::probes_of;
use crate::sheet::{Sheet, MAX_EVENTS, MAX_NODES, MAX_SETS, NO_NODE};

/// A random pair: reference, then device.
pub fn pair(rng: &mut Rng) -> (Sheet, Sheet) {
    let e = rng.range(1, MAX_EVENTS);
    let n = random_nodes(rng);
    let raw = random_raw(rng, e, n);
    let reference = raw.keep();
    let device = match rng.below(6) {
        0 => {
            let n = random_nodes(rng);
            random_raw(rng, e, n).keep().with_codes(&raw.codes)
        }
        1 => reference,
        _ => {
            let plant = rng.one_in(2);
            device_of(rng, &raw, plant).keep()
        }
    };
    (reference, device)
}

/// A device whose nodes are copies of reference nodes that do no more and refuse no
/// more; with `plant`, one random node is then changed so that it may.
pub fn device_of(rng: &mut Rng, reference: &Raw, plant: bool) -> Raw {
    let mut origins = vec![0u8];
    let mut spare = rng.below(MAX_NODES - reference.nodes.len() + 1);
    let mut device = Raw {
        nodes: Vec::new(),
        ..reference.clone()
    };
    while device.nodes.len() < origins.len() {
        let origin = origins[device.nodes.len()] as usize;
        let (succ, sets) = &reference.nodes[origin];
        let sets = weaker_choice(rng, reference.initials(origin), sets);
        let needed = sets.iter().fold(0, |all, set| all | set);
        let mut row = vec![NO_NODE; succ.len()];
        for event in 0..succ.len() {
            let kept = needed >> event & 1 == 1 || !rng.one_in(4);
            if kept && succ[event] != NO_NODE {
                row[event] = copy_of(rng, succ[event], &mut origins, &mut spare);
            }
        }
        device.nodes.push((row, sets));
    }
    if plant {
        plant_violation(rng, &mut device, reference, &origins);
    }
    device
}

/// A device node for a reference node: one there is, or a new one while there is room.
/// The first copy of each reference node always has room.
fn copy_of(rng: &mut Rng, node: u8, origins: &mut Vec<u8>, spare: &mut usize) -> u8 {
    let there: Vec<usize> = (0..origins.len()).filter(|&i| origins[i] == node).collect();
    let anew = there.is_empty() || *spare > 0 && !rng.one_in(3);
    if !anew {
        return rng.pick(&there) as u8;
    }
    if !there.is_empty() {
        *spare -= 1;
    }
    origins.push(node);
    origins.len() as u8 - 1
}

/// Acceptances that each include one of the reference's.
fn weaker_choice(rng: &mut Rng, initials: u16, sets: &[u16]) -> Vec<u16> {
    if sets == [0] {
        return antichain(rng, initials, MAX_SETS);
    }
    let all = rng.one_in(2);
    let mut larger: Vec<u16> = Vec::new();
    for &set in sets {
        let more = if rng.one_in(4) {
            rng.word() & initials
        } else {
            0
        };
        if all || larger.is_empty() || rng.one_in(2) {
            larger.push(set | more);
        }
    }
    least(&larger)
}

/// The sets that include no other, ascending.
fn least(sets: &[u16]) -> Vec<u16> {
    let minimal = |set: &u16| {
        let mut others = sets.iter().filter(|&other| other != set);
        !others.any(|other| other & !set == 0)
    };
    let mut kept: Vec<u16> = sets.iter().copied().filter(minimal).collect();
    kept.sort_unstable();
    kept.dedup();
    kept
}

/// At a random node: a stray successor, or an acceptance that includes none of the
/// reference's (which a reference node that may stop does not have).
fn plant_violation(rng: &mut Rng, device: &mut Raw, reference: &Raw, origins: &[u8]) {
    let node = rng.below(device.nodes.len());
    let origin = origins[node] as usize;
    let initials = reference.initials(origin);
    let strays: Vec<usize> = (0..device.e as usize)
        .filter(|i| initials >> i & 1 == 0)
        .collect();
    if !strays.is_empty() && rng.one_in(2) {
        let event = rng.pick(&strays);
        device.nodes[node].0[event] = rng.below(device.nodes.len()) as u8;
        return;
    }
    let own = device.initials(node);
    let fewer: Vec<u16> = (0..=own)
        .filter(|set| set & !own == 0)
        .filter(|set| {
            reference.nodes[origin]
                .1
                .iter()
                .all(|small| small & !set != 0)
        })
        .collect();
    if !fewer.is_empty() {
        device.nodes[node].1 = vec![rng.pick(&fewer)];
    }
}

/// A random pair with few nodes and events, unrelated or drawn from each other.
pub fn small_pair(rng: &mut Rng) -> (Sheet, Sheet) {
    let e = rng.range(1, 4);
    let n = rng.range(1, 5);
    let raw = random_raw(rng, e, n);
    let device = match rng.below(4) {
        0 => {
            let n = rng.range(1, 5);
            random_raw(rng, e, n)
        }
        _ => {
            let plant = rng.one_in(2);
            device_of(rng, &raw, plant)
        }
    };
    // A device has as many nodes as there is room for; only a small one is taken.
    if device.nodes.len() > 6 {
        return (raw.keep(), raw.keep());
    }
    (raw.keep(), device.keep().with_codes(&raw.codes))
}

/// A random pair whose nearest violation is a refusal at a node with probes of different sizes. The
/// device is the reference but for that node, where each acceptance misses a probe; mostly a small
/// probe is missed and a larger one with a lower number.
pub fn refusing_pair(rng: &mut Rng) -> (Sheet, Sheet) {
    let reference = mixed_raw(rng);
    let mut device = reference.clone();
    let node = rng.below(device.nodes.len());
    let list = probes_of(&device.nodes[node].1, device.e);
    let turned = turned(&list);
    if list.is_empty() || turned.is_empty() && !rng.one_in(4) {
        return refusing_pair(rng);
    }
    let mut missed = vec![rng.pick(&list)];
    if !turned.is_empty() {
        let (small, low) = rng.pick(&turned);
        match rng.one_in(2) {
            true => missed.extend([small, low]),
            false => missed = vec![small | low],
        }
    }
    let initials = device.initials(node);
    let without = missed.iter().map(|set| initials & !set);
    let fewer = if rng.one_in(4) { rng.word() } else { 0 };
    let sets: Vec<u16> = without.map(|set| set & !fewer).collect();
    device.nodes[node].1 = least(&sets);
    (reference.keep(), device.keep())
}

/// Every two probes of a list of which the later has the lower number.
fn turned(list: &[u16]) -> Vec<(u16, u16)> {
    let mut found = Vec::new();
    for (place, &small) in list.iter().enumerate() {
        let lower = list[place..].iter().filter(|&&low| low < small);
        found.extend(lower.map(|&low| (small, low)));
    }
    found
}

/// A random pair in which nearly every place has a successor, so that scripts go far and each
/// count of them can be large.
pub fn full_pair(rng: &mut Rng) -> (Sheet, Sheet) {
    let e = rng.range(1, MAX_EVENTS);
    let codes = random_codes(rng, e).1;
    let sheets = [(); 2].map(|()| nearly_full(rng, e).keep().with_codes(&codes));
    (sheets[0], sheets[1])
}

/// A random sheet with a successor in every place but up to three.
fn nearly_full(rng: &mut Rng, e: usize) -> Raw {
    let n = random_nodes(rng);
    let mut raw = random_raw(rng, e, n);
    for (succ, _) in raw.nodes.iter_mut() {
        for place in succ.iter_mut().filter(|place| **place == NO_NODE) {
            *place = rng.below(n) as u8;
        }
    }
    for _ in 0..rng.below(4) {
        let (node, event) = (rng.below(n), rng.below(e));
        let next = std::mem::replace(&mut raw.nodes[node].0[event], NO_NODE);
        if !reached(&raw) {
            raw.nodes[node].0[event] = next;
        }
    }
    for node in 0..n {
        raw.nodes[node].1 = antichain(rng, raw.initials(node), MAX_SETS);
    }
    raw
}

/// A pair of two rings whose numbers of nodes have no common divisor, so that a common
/// trace meets every pair of nodes before it meets one again. One pair of nodes at most
/// is violating, by a stray or by a refusal; now and then there is a short cut.
pub fn deep_pair(rng: &mut Rng) -> (Sheet, Sheet) {
    let (p, q) = loop {
        let (p, q) = (rng.range(8, MAX_NODES), rng.range(8, MAX_NODES));
        if divisor(p, q) == 1 {
            break (p, q);
        }
    };
    let e = rng.range(2, MAX_EVENTS);
    let step = rng.below(e);
    let stray = (step + rng.range(1, e - 1)) % e;
    let mut reference = ring(rng, e, p, step, stray);
    let mut device = ring(rng, e, q, step, stray);
    let (a, b) = (rng.below(p), rng.below(q));
    // Every event but the stray is one of the reference's at each of its nodes.
    for (node, (succ, sets)) in reference.nodes.iter_mut().enumerate() {
        let next = ((node + 1) % p) as u8;
        for (event, place) in succ.iter_mut().enumerate() {
            if event != stray || node != a {
                *place = next;
            }
        }
        *sets = vec![0];
    }
    for (succ, _) in device.nodes.iter_mut() {
        succ[stray] = NO_NODE;
    }
    for node in 0..q {
        let own = device.initials(node);
        device.nodes[node].1 = vec![own];
    }
    match rng.below(5) {
        0 | 1 => device.nodes[b].0[stray] = ((b + 1) % q) as u8,
        2 | 3 => {
            let own = reference.initials(a);
            reference.nodes[a].1 = demanding(rng, own, 1 << step);
            let rest = device.initials(b) & !(1 << step);
            let alone = reference.nodes[a].1 == [1 << step];
            // A device that stops fails every later test too; one that refuses the step may not.
            device.nodes[b].1 = vec![if alone { rest } else { 0 }];
        }
        _ => {}
    }
    if rng.one_in(6) {
        let (ring, nodes) = match rng.one_in(2) {
            true => (&mut reference, p),
            false => (&mut device, q),
        };
        let node = rng.below(nodes);
        ring.nodes[node].0[step] = rng.below(nodes) as u8;
    }
    if !reached(&reference) || !reached(&device) {
        return deep_pair(rng);
    }
    let codes = random_codes(rng, e).1;
    (
        reference.keep().with_codes(&codes),
        device.keep().with_codes(&codes),
    )
}

/// Acceptances of which a node that does the step keeps one: the step, or each event.
fn demanding(rng: &mut Rng, initials: u16, step: u16) -> Vec<u16> {
    if rng.one_in(2) {
        return vec![step];
    }
    let mut sets: Vec<u16> = (0..16).map(|event| 1 << event).collect();
    sets.retain(|set| initials & set != 0);
    sets
}

/// A ring of nodes on some events, the step among them and the stray not.
fn ring(rng: &mut Rng, e: usize, n: usize, step: usize, stray: usize) -> Raw {
    let mut raw = Raw::new(e as u8, Vec::new());
    for node in 0..n {
        let next = ((node + 1) % n) as u8;
        let mut succ = vec![NO_NODE; e];
        for (event, place) in succ.iter_mut().enumerate() {
            if event == step || event != stray && rng.one_in(3) {
                *place = next;
            }
        }
        raw.nodes.push((succ, vec![0]));
    }
    raw
}

fn divisor(a: usize, b: usize) -> usize {
    if b == 0 {
        a
    } else {
        divisor(b, a % b)
    }
}

/// Whether every node is reached from node 0.
fn reached(raw: &Raw) -> bool {
    let mut seen = vec![false; raw.nodes.len()];
    let mut open = vec![0usize];
    while let Some(node) = open.pop() {
        if !std::mem::replace(&mut seen[node], true) {
            let next = raw.nodes[node].0.iter().filter(|&&next| next != NO_NODE);
            open.extend(next.map(|&next| next as usize));
        }
    }
    seen.iter().all(|&seen| seen)
}
