//! Probes: the minimal hitting sets of a node's acceptances, by the definition.

use crate::sheet::{accept, Sheet};

/// A set meets an acceptance if they share an event.
pub fn meets_all(sets: &[u16], candidate: u16) -> bool {
    sets.iter().all(|set| set & candidate != 0)
}

/// All probes of a collection of sets over `e` events, by how many events a probe has, then by
/// number. Every set of events is tried: it must meet every member of the collection, and no
/// smaller set inside it may do so.
pub fn probes_of(sets: &[u16], e: u8) -> Vec<u16> {
    let meets: Vec<bool> = (0..1u32 << e)
        .map(|candidate| meets_all(sets, candidate as u16))
        .collect();
    let mut found: Vec<u16> = (0..1u32 << e)
        .filter(|&candidate| meets[candidate as usize])
        .filter(|&candidate| !smaller_inside(candidate).any(|small| meets[small as usize]))
        .map(|candidate| candidate as u16)
        .collect();
    found.sort_by_key(|&probe| (size(probe), probe));
    found
}

/// How many events a set has.
pub fn size(set: u16) -> u32 {
    set.count_ones()
}

/// Every set inside `set` other than `set` itself.
fn smaller_inside(set: u32) -> impl Iterator<Item = u32> {
    let mut next = if set == 0 {
        None
    } else {
        Some((set - 1) & set)
    };
    std::iter::from_fn(move || {
        let small = next?;
        next = if small == 0 {
            None
        } else {
            Some((small - 1) & set)
        };
        Some(small)
    })
}

/// The probes of a node of an accepted sheet.
pub fn probes(sheet: &Sheet, node: u8) -> Vec<u16> {
    probes_of(sheet.row(node).acceptances(), sheet.e)
}

/// The probe call for a lent list of `lent` places: the probes that it writes from
/// the front, or the refusal: the sheet's, then 9, then 10.
pub fn list(sheet: &Sheet, node: u8, lent: usize) -> Result<Vec<u16>, u8> {
    accept(sheet)?;
    if node >= sheet.n {
        return Err(9);
    }
    let found = probes(sheet, node);
    if lent < found.len() {
        return Err(10);
    }
    Ok(found)
}

/// The probe call on a lent list. The answer is the number of probes.
pub fn fill(sheet: &Sheet, node: u8, lent: &mut [u16]) -> Result<usize, u8> {
    let found = list(sheet, node, lent.len())?;
    lent[..found.len()].copy_from_slice(&found);
    Ok(found.len())
}
