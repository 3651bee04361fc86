//! The worst case of each call.

use model::keypad::{table_of, Rule, MAX_RULES};
use model::random::Rng;
use model::sheet::{Sheet, MAX_EVENTS, MAX_NODES, MAX_SETS, NO_NODE};

use super::runs::probes_of;

/// The successors and the sets of one node.
type Node = ([u8; MAX_EVENTS], Vec<u16>);

/// The largest sheet, in version 2: 32 nodes in a ring on all 12 events, each with the same 16
/// sets, those with the most probes of many that were drawn.
pub fn crowded() -> Sheet {
    let sets = many_probes();
    let node = |v: u8| ([(v + 1) % MAX_NODES as u8; MAX_EVENTS], sets.clone());
    let nodes: Vec<Node> = (0..MAX_NODES as u8).map(node).collect();
    let codes: [u16; MAX_EVENTS] = std::array::from_fn(|event| 257 * (event as u16 + 1));
    Sheet::build(MAX_EVENTS as u8, &nodes).with_codes(&codes)
}

/// Sixteen sets of 12 events with many probes: the best of some random choices, each with
/// sets of one size.
fn many_probes() -> Vec<u16> {
    let mut rng = Rng::new(1);
    let choice = |round: usize| {
        let size = 2 + round as u32 % 7;
        let level = (0..1u16 << MAX_EVENTS).filter(|set| set.count_ones() == size);
        let mut level: Vec<u16> = level.collect();
        rng.shuffle(&mut level);
        level.truncate(MAX_SETS);
        level.sort_unstable();
        level
    };
    let choices = (0..700).map(choice);
    let most = choices.max_by_key(|sets| probes_of(sets, MAX_EVENTS as u8).len());
    most.unwrap_or_default()
}

/// The largest sheet, and a device that is the same but for its start, where it misses the last of
/// the probes and no other: it has an acceptance of all events outside that probe, and of the
/// reference's as many as there is room for beside it.
pub fn refusing() -> (Sheet, Sheet) {
    let reference = crowded();
    let row = reference.row(0);
    let last = probes_of(row.acceptances(), reference.e).pop();
    let rest = reference.alphabet() & !last.unwrap_or_default();
    let apart = row.acceptances().iter().filter(|&set| rest & !set != 0);
    let mut sets: Vec<u16> = apart.copied().take(MAX_SETS - 1).collect();
    sets.push(rest);
    sets.sort_unstable();
    let mut device = reference;
    device.rows[0].c = sets.len() as u8;
    device.rows[0].sets = [0; MAX_SETS];
    device.rows[0].sets[..sets.len()].copy_from_slice(&sets);
    (reference, device)
}

/// A reference and a device that refines it, each of `n` nodes with 12 events and 16 sets. All
/// pairs are reached, and from some depth on every layer has all of them. Of the reference's
/// sets only the last is inside a set of the device.
pub fn dense(n: u8) -> (Sheet, Sheet) {
    let below = |e: u32, size: u32| (0..1u16 << e).filter(move |set| set.count_ones() == size);
    let top = 1u16 << (MAX_EVENTS - 1);
    let mut mine: Vec<u16> = below(11, 5).take(MAX_SETS - 1).collect();
    mine.push(top);
    let theirs: Vec<u16> = below(11, 2).take(MAX_SETS).map(|set| set | top).collect();
    let ring = |bit: usize, sets: &Vec<u16>| {
        let node = |v: u8| {
            let step = |event: usize| (v + (event >> bit & 1) as u8) % n;
            (std::array::from_fn(step), sets.clone())
        };
        let nodes: Vec<Node> = (0..n).map(node).collect();
        Sheet::build(MAX_EVENTS as u8, &nodes)
    };
    (ring(0, &mine), ring(1, &theirs))
}

/// A reference and a device of 32 nodes each, with 12 events: on event 0 a node leads to the next,
/// on each other event to any node, or, if there are gaps, in one of four places to none. Without
/// gaps every node has 16 sets, with gaps it may stop.
pub fn spread(gaps: bool) -> (Sheet, Sheet) {
    let mut rng = Rng::new(2);
    let six = (0..1u16 << MAX_EVENTS).filter(|set| set.count_ones() == 6);
    let sets = match gaps {
        true => vec![0],
        false => six.take(MAX_SETS).collect(),
    };
    let mut sheet = || {
        let node = |v: u8| {
            let mut succ = [NO_NODE; MAX_EVENTS];
            for place in &mut succ {
                if !(gaps && rng.one_in(4)) {
                    *place = rng.below(MAX_NODES) as u8;
                }
            }
            succ[0] = (v + 1) % MAX_NODES as u8;
            (succ, sets.clone())
        };
        let nodes: Vec<Node> = (0..MAX_NODES as u8).map(node).collect();
        Sheet::build(MAX_EVENTS as u8, &nodes)
    };
    (sheet(), sheet())
}

/// A sheet of 32 nodes with 12 events, of which each node can do two: one leads to the next node,
/// one to any.
pub fn sparse() -> Sheet {
    let mut rng = Rng::new(3);
    let node = |v: u8| {
        let mut succ = [NO_NODE; MAX_EVENTS];
        let mut events: Vec<usize> = (0..MAX_EVENTS).collect();
        rng.shuffle(&mut events);
        succ[events[0]] = (v + 1) % MAX_NODES as u8;
        succ[events[1]] = rng.below(MAX_NODES) as u8;
        (succ, vec![1 << events[0] | 1 << events[1]])
    };
    let nodes: Vec<Node> = (0..MAX_NODES as u8).map(node).collect();
    Sheet::build(MAX_EVENTS as u8, &nodes)
}

/// A reference and a device of `n` nodes each whose nearest violation, a stray, comes after
/// n n - 1 events: the device climbs on event 0 and goes from its last node back to its first
/// on event 1; the reference stays on 0 and climbs on 1, and its last node knows only 0.
pub fn longest(n: u8) -> (Sheet, Sheet) {
    let mine = |v: u8| match v + 1 {
        next if next == n => ([v, NO_NODE], vec![1]),
        next => ([v, next], vec![1, 2]),
    };
    let theirs = |w: u8| match w + 1 {
        next if next == n => ([NO_NODE, 0], vec![2]),
        next => ([next, NO_NODE], vec![1]),
    };
    let mine: Vec<_> = (0..n).map(mine).collect();
    let theirs: Vec<_> = (0..n).map(theirs).collect();
    (Sheet::build(2, &mine), Sheet::build(2, &theirs))
}

/// The rules of mask 252 and values 0, 4 and so on, which is a good table of 64 rules: every code is
/// compared with all of them, and code 255 is found by the last.
pub fn fours() -> Vec<u8> {
    let rule = |i: usize| Rule {
        mask: 252,
        value: (4 * i) as u8,
        event: (i % MAX_EVENTS) as u8,
    };
    let rules: Vec<Rule> = (0..MAX_RULES).map(rule).collect();
    table_of(&rules)
}

/// The same with the first two rules as one, and a rule of code 255 alone at the end: the only bad
/// code is the last, and it is so by the last two rules.
pub fn last_bad() -> Vec<u8> {
    let first = [248, 0, 0];
    [&first, &fours()[6..], &[255, 255, 0]].concat()
}
