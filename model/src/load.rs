//! A reproducible load: the walk that a seed makes on a sheet.

use crate::sheet::{accept, after, walk, Sheet};

/// The most events of a walk.
pub const MAX_WALK: u16 = 4_096;

/// Up to this many events a walk is worked out place by place.
const FEW: u16 = 128;

/// The state after a state (xorshift32): it is combined by exclusive or with itself shifted left
/// 13, then right 17, then left 5, each time without the bits above the lowest 32.
pub fn next_state(state: u32) -> u32 {
    let state = state ^ state << 13;
    let state = state ^ state >> 17;
    state ^ state << 5
}

/// The state so many steps after the seed.
pub fn state_after(seed: u32, steps: usize) -> u32 {
    (0..steps).fold(seed, |state, _| next_state(state))
}

/// The initials of a node of an accepted sheet, ascending.
pub fn initials(sheet: &Sheet, node: u8) -> Vec<u8> {
    let events = 0..sheet.e;
    events
        .filter(|&event| after(sheet, node, event).is_some())
        .collect()
}

/// The event that a state takes of m initials: number (state remainder m), counted from 0. There is
/// none if m is 0.
pub fn taken(initials: &[u8], state: u32) -> Option<u8> {
    let number = (state as usize).checked_rem(initials.len())?;
    Some(initials[number])
}

/// The event that comes after some events of a walk: it is taken of the initials of the node that
/// they lead to, by the state that is one step more from the seed than there are events.
pub fn event_after(sheet: &Sheet, seed: u32, events: &[u8]) -> Option<u8> {
    let node = walk(sheet, events)?;
    taken(&initials(sheet, node), state_after(seed, events.len() + 1))
}

/// The walk that a seed makes on an accepted sheet, of at most `wish` events: it ends early where
/// there are no initials.
pub fn walk_of(sheet: &Sheet, seed: u32, wish: u16) -> Vec<u8> {
    match wish <= FEW {
        true => place_by_place(sheet, seed, wish),
        false => step_by_step(sheet, seed, wish),
    }
}

/// The walk, each place from the seed and from the events before it.
pub fn place_by_place(sheet: &Sheet, seed: u32, wish: u16) -> Vec<u8> {
    let mut events = Vec::new();
    while events.len() < wish.into() {
        match event_after(sheet, seed, &events) {
            Some(event) => events.push(event),
            None => break,
        }
    }
    events
}

/// The walk, with the node and the state kept from one step to the next.
pub fn step_by_step(sheet: &Sheet, seed: u32, wish: u16) -> Vec<u8> {
    let step = |at: &mut (u8, u32)| {
        let state = next_state(at.1);
        let event = taken(&initials(sheet, at.0), state)?;
        *at = (after(sheet, at.0, event)?, state);
        Some(event)
    };
    let mut at = (0, seed);
    let events = std::iter::from_fn(|| step(&mut at));
    events.take(wish.into()).collect()
}

/// The walk call for a lent list of `lent` places: the events that it writes from the front, or the
/// refusal: the sheet's, then 27, then 28.
pub fn list(sheet: &Sheet, seed: u32, wish: u16, lent: usize) -> Result<Vec<u8>, u8> {
    accept(sheet)?;
    if seed == 0 {
        return Err(27);
    }
    if lent < wish.into() || wish > MAX_WALK {
        return Err(28);
    }
    Ok(walk_of(sheet, seed, wish))
}

/// The walk call on a lent list. The answer is the walk's length.
pub fn fill(sheet: &Sheet, seed: u32, wish: u16, lent: &mut [u8]) -> Result<usize, u8> {
    let events = list(sheet, seed, wish, lent.len())?;
    lent[..events.len()].copy_from_slice(&events);
    Ok(events.len())
}
