//! The bound is reached: for every p and q two sheets of p and q nodes whose first failing test is
//! number p·q - 1.

use crate::sheet::{encode, Sheet, MAX_NODES, NO_NODE};

/// The version of both sheets' bytes.
pub const VERSION: u8 = 1;
/// The events of both sheets.
pub const EVENTS: u8 = 2;

/// The successors on the two events and the sets of a node.
type Node = ([u8; EVENTS as usize], Vec<u16>);

/// A node with one event, which leads to a node: the event is its one set.
fn with_one(event: usize, next: u8) -> Node {
    let mut succ = [NO_NODE; EVENTS as usize];
    succ[event] = next;
    (succ, vec![1 << event])
}

/// A node of the reference of p nodes: it stays on 0, climbs on 1 and may insist on either alone.
/// The last node knows only 0, staying.
fn reference_node(p: u8, node: u8) -> Node {
    match node + 1 == p {
        true => with_one(0, node),
        false => ([node, node + 1], vec![1, 2]),
    }
}

/// A node of the device of q nodes: it does only event 0, climbing. The last node does only event
/// 1, back to the first.
fn device_node(q: u8, node: u8) -> Node {
    match node + 1 == q {
        true => with_one(1, 0),
        false => with_one(0, node + 1),
    }
}

/// The reference of p nodes, 1 to 32.
pub fn reference(p: u8) -> Sheet {
    let nodes: Vec<Node> = (0..p).map(|node| reference_node(p, node)).collect();
    Sheet::build(EVENTS, &nodes)
}

/// The device of q nodes, 1 to 32.
pub fn device(q: u8) -> Sheet {
    let nodes: Vec<Node> = (0..q).map(|node| device_node(q, node)).collect();
    Sheet::build(EVENTS, &nodes)
}

/// The bytes of the two sheets, the reference's first.
pub fn sheets(p: u8, q: u8) -> (Vec<u8>, Vec<u8>) {
    (encode(VERSION, &reference(p)), encode(VERSION, &device(q)))
}

/// The number of the first failing test of the two sheets: p·q - 1.
pub fn first_failing(p: u8, q: u8) -> u16 {
    u16::from(p) * u16::from(q) - 1
}

/// Whether a number of nodes is in range.
pub fn in_range(nodes: u8) -> bool {
    (1..=MAX_NODES).contains(&nodes.into())
}

/// The call for lent lists of so many places, the reference's first: the bytes of both sheets, or
/// the refusal: 30, then 31.
pub fn list(p: u8, q: u8, lent: (usize, usize)) -> Result<(Vec<u8>, Vec<u8>), u8> {
    if !in_range(p) || !in_range(q) {
        return Err(30);
    }
    let (reference, device) = sheets(p, q);
    if lent.0 < reference.len() || lent.1 < device.len() {
        return Err(31);
    }
    Ok((reference, device))
}

/// The call on two lent lists. The answer is the lengths of the two sheets.
pub fn fill(p: u8, q: u8, reference: &mut [u8], device: &mut [u8]) -> Result<(usize, usize), u8> {
    let (mine, theirs) = list(p, q, (reference.len(), device.len()))?;
    reference[..mine.len()].copy_from_slice(&mine);
    device[..theirs.len()].copy_from_slice(&theirs);
    Ok((mine.len(), theirs.len()))
}
