//! Damaged bytes, each aimed at one refusal of a reading.

use super::codes::two_places;
use super::raw::{random_nodes, random_raw, Raw};
use super::Rng;
use crate::sheet::{MAX_EVENTS, MAX_NODES, MAX_SETS, NO_NODE};

/// The refusals that damaged bytes are aimed at.
pub const AIMS_READ: [u8; 9] = [1, 2, 3, 4, 18, 5, 6, 7, 8];

/// Bytes that are refused with the number `aim`, 1 to 8 or 18.
pub fn damaged(rng: &mut Rng, aim: u8) -> Vec<u8> {
    let raw = some_raw(rng);
    match aim {
        1 => wrong_length(rng, raw.bytes()),
        2 => wrong_version(rng, raw.bytes()),
        3 => wrong_range(rng, raw),
        4 => wrong_end(rng, raw),
        5 => wrong_count(rng, raw),
        6 => wrong_successor(rng, raw).bytes(),
        7 => wrong_sets(rng, raw).bytes(),
        18 => code_twice(rng),
        _ => unreached(rng).bytes(),
    }
}

/// Damaged bytes with one byte or one length changed once more: any number can come.
pub fn damaged_twice(rng: &mut Rng) -> Vec<u8> {
    let aim = rng.pick(&AIMS_READ);
    let mut bytes = damaged(rng, aim);
    match rng.below(4) {
        0 if !bytes.is_empty() => {
            let place = rng.below(bytes.len());
            bytes[place] = rng.byte();
        }
        1 => bytes.truncate(rng.below(bytes.len() + 1)),
        2 => bytes.push(rng.byte()),
        _ if bytes.len() > 6 => {
            let place = rng.range(4, 6);
            bytes[place] = rng.pick(&[0, 1, 2, 12, 13, 32, 33, 255]);
        }
        _ => {}
    }
    if rng.one_in(2) && bytes.len() > 6 {
        fix_length(&mut bytes);
    }
    bytes
}

/// Noise of a short length; half of the time with a good head, so that it gets further.
pub fn noise_bytes(rng: &mut Rng) -> Vec<u8> {
    let length = rng.below(48);
    let mut bytes: Vec<u8> = (0..length).map(|_| rng.byte()).collect();
    if rng.one_in(2) && bytes.len() > 6 {
        bytes[4] = rng.range(1, 2) as u8;
        bytes[5] = rng.range(1, 3) as u8;
        bytes[6] = rng.range(1, 3) as u8;
        for byte in bytes.iter_mut().skip(7) {
            *byte = rng.pick(&[0, 0, 1, 1, 2, 3, 255]);
        }
        fix_length(&mut bytes);
    }
    bytes
}

/// Bytes longer than any sheet, so that all four bytes of the length field count: a good
/// sheet, zeros after it, a field that is right or wrong in one bit, and at times an N
/// that takes in some of the zeros.
pub fn long_bytes(rng: &mut Rng) -> Vec<u8> {
    let good = some_raw(rng).bytes();
    let follow = match rng.below(3) {
        0 => rng.range(1_468, 65_535),
        1 => rng.range(65_536, 200_000),
        _ => rng.range(1 << 24, (1 << 24) + 100_000),
    };
    let mut bytes = vec![0; follow + 4];
    bytes[..good.len()].copy_from_slice(&good);
    fix_length(&mut bytes);
    if rng.one_in(3) {
        bytes[rng.below(4)] ^= 1 << rng.below(8);
    }
    if rng.one_in(3) {
        bytes[6] = rng.pick(&[32, 33, 255]);
    }
    bytes
}

fn some_raw(rng: &mut Rng) -> Raw {
    let e = rng.range(1, MAX_EVENTS);
    let n = random_nodes(rng);
    random_raw(rng, e, n)
}

fn fix_length(bytes: &mut [u8]) {
    let follow = (bytes.len() - 4) as u32;
    bytes[..4].copy_from_slice(&follow.to_be_bytes());
}

/// 1: a cut or longer end, a changed field, or too few bytes.
fn wrong_length(rng: &mut Rng, mut bytes: Vec<u8>) -> Vec<u8> {
    let right = (bytes.len() - 4) as u32;
    let field = match rng.below(6) {
        0 => right.wrapping_add(rng.pick(&[1, 2, u32::MAX, 4])),
        1 => rng.pick(&[u32::MAX, u32::MAX - 3, u32::MAX - 4, 0]),
        2 => right ^ 1 << rng.below(32),
        3 => {
            bytes.truncate(rng.below(bytes.len()));
            right
        }
        4 => {
            bytes.extend((0..rng.range(1, 5)).map(|_| 0u8));
            right
        }
        _ => {
            bytes.truncate(rng.below(7));
            bytes.len().saturating_sub(4) as u32
        }
    };
    if bytes.len() >= 4 {
        bytes[..4].copy_from_slice(&field.to_be_bytes());
    }
    bytes
}

/// 2: neither version, half of the time with a wrong E or N behind it.
fn wrong_version(rng: &mut Rng, mut bytes: Vec<u8>) -> Vec<u8> {
    bytes[4] = rng.pick(&[0, 3, 4, 255]);
    if rng.one_in(2) {
        bytes[rng.range(5, 6)] = rng.pick(&[0, 13, 33, 255]);
    }
    bytes
}

/// 3: an E or N out of range, some of them with all the nodes that they promise, or with a code
/// given twice.
fn wrong_range(rng: &mut Rng, mut raw: Raw) -> Vec<u8> {
    if raw.e > 1 && rng.one_in(3) {
        raw = with_code_twice(rng, raw);
    }
    let mut bytes = raw.bytes();
    match rng.below(4) {
        0 => bytes[5] = rng.pick(&[0, 13, 14, 16, 255]),
        1 => bytes[6] = rng.pick(&[0, 33, 34, 64, 255]),
        2 => {
            let e = rng.range(1, MAX_EVENTS);
            bytes = random_raw(rng, e, MAX_NODES + 1).bytes();
        }
        _ => {
            let n = random_nodes(rng);
            bytes = random_raw(rng, MAX_EVENTS + 1, n).bytes();
        }
    }
    bytes
}

/// 4: a cut anywhere, any bytes left, an end between two nodes, a whole node left, or codes cut
/// off.
fn wrong_end(rng: &mut Rng, raw: Raw) -> Vec<u8> {
    if rng.one_in(4) {
        return cut_codes(rng, raw);
    }
    let n = raw.nodes.len();
    let mut bytes = raw.bytes();
    match rng.below(4) {
        0 if n < MAX_NODES => bytes[6] = rng.range(n + 1, MAX_NODES) as u8,
        1 if n > 1 => bytes[6] = rng.range(1, n - 1) as u8,
        2 => {
            let more = rng.range(1, 40);
            bytes.extend((0..more).map(|_| rng.byte()));
        }
        _ => bytes.truncate(rng.range(7, bytes.len() - 1)),
    }
    fix_length(&mut bytes);
    bytes
}

/// 4: codes cut off, some with a code given twice before the cut; or no bytes after the codes.
fn cut_codes(rng: &mut Rng, mut raw: Raw) -> Vec<u8> {
    raw.version = 2;
    let end = raw.nodes_at();
    let length = match rng.below(4) {
        0 => end,
        1 => end - 1,
        _ => rng.range(7, end - 1),
    };
    if length < end && raw.e > 1 && rng.one_in(2) {
        raw = with_code_twice(rng, raw);
    }
    let mut bytes = raw.bytes();
    bytes.truncate(length);
    fix_length(&mut bytes);
    bytes
}

/// 18: a code given twice, half of the time with something else wrong behind the codes.
fn code_twice(rng: &mut Rng) -> Vec<u8> {
    let e = rng.range(2, MAX_EVENTS);
    let n = random_nodes(rng);
    let raw = random_raw(rng, e, n);
    let raw = with_code_twice(rng, raw);
    match rng.below(10) {
        0 => {
            let mut bytes = raw.bytes();
            let end = raw.nodes_at();
            bytes.truncate(rng.range(end, bytes.len() - 1));
            fix_length(&mut bytes);
            bytes
        }
        1 => wrong_count(rng, raw),
        2 => wrong_successor(rng, raw).bytes(),
        3 => wrong_sets(rng, raw).bytes(),
        4 => Raw {
            nodes: vec![(vec![NO_NODE; e], vec![0]); 2],
            ..raw
        }
        .bytes(),
        _ => raw.bytes(),
    }
}

/// The sheet in version 2 with the code of one event given to another too; E is 2 or more.
pub(super) fn with_code_twice(rng: &mut Rng, mut raw: Raw) -> Raw {
    let (one, other) = two_places(rng, raw.codes.len());
    raw.version = 2;
    raw.codes[other] = raw.codes[one];
    raw
}

/// 5: a C of 0, of 17 with all its sets, or any other; at times the last byte of all.
fn wrong_count(rng: &mut Rng, mut raw: Raw) -> Vec<u8> {
    let node = rng.below(raw.nodes.len());
    let (succ, sets) = &mut raw.nodes[node];
    let whole = rng.one_in(3);
    if whole {
        let most = if rng.one_in(3) { 0 } else { MAX_SETS + 1 };
        *sets = many_sets(succ, most);
        return raw.bytes();
    }
    let front = Raw {
        nodes: raw.nodes[..node].to_vec(),
        ..raw.clone()
    };
    let before = front.bytes().len() + raw.e as usize;
    let mut bytes = raw.bytes();
    bytes[before] = rng.pick(&[0, 17, 18, 200, 255]);
    if rng.one_in(2) {
        bytes.truncate(rng.range(before + 1, bytes.len()));
        fix_length(&mut bytes);
    }
    bytes
}

/// As many sets as asked for: an antichain of sets of the same size if the initials
/// have room for it, else all ascending single numbers.
fn many_sets(succ: &[u8], most: usize) -> Vec<u16> {
    let initials = (0..succ.len())
        .filter(|&event| succ[event] != NO_NODE)
        .fold(0u16, |set, event| set | 1 << event);
    let half = initials.count_ones() / 2;
    let level = (0..=initials).filter(|set| set & !initials == 0 && set.count_ones() == half);
    let level: Vec<u16> = level.take(most).collect();
    if level.len() == most {
        level
    } else {
        (1..=most as u16).collect()
    }
}

/// 6: a successor from N to 254.
pub(super) fn wrong_successor(rng: &mut Rng, mut raw: Raw) -> Raw {
    let n = raw.nodes.len();
    let node = rng.below(n);
    let event = rng.below(raw.e as usize);
    let value = if rng.one_in(2) { n } else { rng.range(n, 254) };
    raw.nodes[node].0[event] = value as u8;
    raw
}

/// 7: one set rule broken, in one of several ways, at a node that has room for it.
pub(super) fn wrong_sets(rng: &mut Rng, mut raw: Raw) -> Raw {
    let way = rng.below(6);
    let room = |node: &usize| match way {
        0 => raw.nodes[*node].1.len() > 1,
        1 => raw.nodes[*node].1[0] != 0,
        2 => raw.initials(*node).count_ones() >= 2,
        3 => raw.initials(*node).count_ones() >= 3,
        _ => true,
    };
    let nodes: Vec<usize> = (0..raw.nodes.len()).filter(room).collect();
    if nodes.is_empty() {
        return outside(rng, raw);
    }
    let node = rng.pick(&nodes);
    let mut bits: Vec<u16> = (0..16).map(|event| 1 << event).collect();
    bits.retain(|bit| raw.initials(node) & bit != 0);
    let sets = &mut raw.nodes[node].1;
    match way {
        0 => sets.swap(0, 1),
        1 => {
            sets.insert(0, 0);
            sets.truncate(MAX_SETS);
        }
        2 => *sets = vec![bits[0], bits[0] | bits[1]],
        3 => *sets = vec![bits[0], bits[1], bits[0] | bits[2]],
        4 => {
            sets.truncate(MAX_SETS - 1);
            sets.push(sets[sets.len() - 1]);
        }
        _ => return outside(rng, raw),
    }
    raw
}

/// A set with an event outside the initials, below E or not.
fn outside(rng: &mut Rng, mut raw: Raw) -> Raw {
    let node = rng.below(raw.nodes.len());
    let initials = raw.initials(node);
    let free: Vec<u16> = (0..16).filter(|event| initials >> event & 1 == 0).collect();
    let event = rng.pick(&free);
    if let Some(last) = raw.nodes[node].1.last_mut() {
        *last |= 1 << event;
    }
    raw
}

/// 8: some nodes to which no other node leads; they may lead anywhere.
pub(super) fn unreached(rng: &mut Rng) -> Raw {
    let e = rng.range(1, MAX_EVENTS);
    let n = random_nodes(rng).min(MAX_NODES - 1);
    let mut raw = random_raw(rng, e, n);
    let all = rng.range(n + 1, (n + 3).min(MAX_NODES));
    for _ in n..all {
        let one = |rng: &mut Rng| {
            if rng.one_in(2) {
                NO_NODE
            } else {
                rng.below(all) as u8
            }
        };
        let succ = (0..e).map(|_| one(rng)).collect();
        raw.nodes.push((succ, vec![0]));
    }
    raw.rename_at_random(rng);
    raw
}
