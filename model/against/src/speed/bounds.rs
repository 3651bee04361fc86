//! The two sheets that reach the bound, written straight to two lent lists.

use model::numbers::Bounded;
use model::sheet::{MAX_NODES, NO_NODE};

/// Writes both sheets.
pub fn bound(p: u8, q: u8, reference: &mut [u8], device: &mut [u8]) -> Bounded {
    let range = 1..=MAX_NODES as u8;
    if !range.contains(&p) || !range.contains(&q) {
        return answer(30, 0, 0);
    }
    let (first, second) = (7 * p as usize + 5, 5 * q as usize + 7);
    if reference.len() < first || device.len() < second {
        return answer(31, 0, 0);
    }
    write_reference(p, &mut reference[..first]);
    write_device(q, &mut device[..second]);
    answer(0, first, second)
}

/// An answer in numbers.
fn answer(refusal: u8, reference: usize, device: usize) -> Bounded {
    Bounded {
        refusal,
        reference: reference as u16,
        device: device as u16,
    }
}

/// The head, p - 1 nodes of seven bytes, and the last of five.
fn write_reference(p: u8, places: &mut [u8]) {
    let (head, nodes) = places.split_at_mut(7);
    head.copy_from_slice(&[0, 0, 0, 7 * p + 1, 1, 2, p]);
    let mut nodes = nodes.chunks_exact_mut(7);
    for (node, v) in nodes.by_ref().zip(0..) {
        node.copy_from_slice(&[v, v + 1, 2, 0, 1, 0, 2]);
    }
    nodes
        .into_remainder()
        .copy_from_slice(&[p - 1, NO_NODE, 1, 0, 1]);
}

/// The head, and q nodes of five bytes.
fn write_device(q: u8, places: &mut [u8]) {
    let (head, nodes) = places.split_at_mut(7);
    head.copy_from_slice(&[0, 0, 0, 5 * q + 3, 1, 2, q]);
    let (nodes, last) = nodes.split_at_mut(5 * (q as usize - 1));
    for (node, w) in nodes.chunks_exact_mut(5).zip(1..) {
        node.copy_from_slice(&[w, NO_NODE, 1, 0, 1]);
    }
    last.copy_from_slice(&[NO_NODE, 0, 1, 0, 2]);
}
