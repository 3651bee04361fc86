//! Sheets: the kept form, reading, checking again, writing, and walks.

use crate::faults::{check_with, read_with, Fault};

/// The largest number of events.
pub const MAX_EVENTS: usize = 12;
/// The largest number of nodes.
pub const MAX_NODES: usize = 32;
/// The largest number of acceptances of one node.
pub const MAX_SETS: usize = 16;
/// The length of the largest sheet in bytes.
pub const MAX_BYTES: usize = 1_471;
/// A successor place without a successor.
pub const NO_NODE: u8 = 255;

/// What a sheet keeps of one node: its successors, its acceptances and their count.
#[repr(C)]
#[derive(Clone, Copy, PartialEq, Eq, Debug)]
pub struct Row {
    pub succ: [u8; MAX_EVENTS],
    pub sets: [u16; MAX_SETS],
    pub c: u8,
}

/// A kept sheet: 32 rows, the number of events, the number of nodes, and the catalogue
/// code of each event.
#[repr(C)]
#[derive(Clone, Copy, PartialEq, Eq, Debug)]
pub struct Sheet {
    pub rows: [Row; MAX_NODES],
    pub e: u8,
    pub n: u8,
    pub codes: [u16; MAX_EVENTS],
}

impl Row {
    /// Every place 0, as in the answer of a refused reading.
    pub const ZERO: Row = Row {
        succ: [0; MAX_EVENTS],
        sets: [0; MAX_SETS],
        c: 0,
    };

    /// The row of a node that the sheet does not have.
    pub const UNUSED: Row = Row {
        succ: [NO_NODE; MAX_EVENTS],
        sets: [0; MAX_SETS],
        c: 0,
    };

    /// The events below `e` that have a successor, as a set.
    pub fn initials(&self, e: u8) -> u16 {
        (0..e as usize)
            .filter(|&event| self.succ[event] != NO_NODE)
            .fold(0, |set, event| set | 1 << event)
    }

    /// The minimal acceptances.
    pub fn acceptances(&self) -> &[u16] {
        &self.sets[..self.c as usize]
    }

    /// The node may stop exactly if the empty set is an acceptance.
    pub fn may_stop(&self) -> bool {
        self.acceptances().contains(&0)
    }

    /// The node may refuse `set` exactly if an acceptance has no event in it.
    pub fn may_refuse(&self, set: u16) -> bool {
        self.acceptances().iter().any(|&a| a & set == 0)
    }
}

impl Sheet {
    /// Every place 0, as in the answer of a refused reading.
    pub const ZERO: Sheet = Sheet {
        rows: [Row::ZERO; MAX_NODES],
        e: 0,
        n: 0,
        codes: [0; MAX_EVENTS],
    };

    /// The row of a node, copied out.
    pub fn row(&self, node: u8) -> Row {
        self.rows[node as usize]
    }

    /// The initials of a node.
    pub fn initials(&self, node: u8) -> u16 {
        self.row(node).initials(self.e)
    }

    /// All E events, as a set.
    pub fn alphabet(&self) -> u16 {
        ((1u32 << self.e) - 1) as u16
    }

    /// The codes of the E events, as far as there are places.
    pub fn used_codes(&self) -> &[u16] {
        &self.codes[..(self.e as usize).min(MAX_EVENTS)]
    }

    /// The same sheet with these codes in front and 0 in the other places.
    pub fn with_codes(mut self, codes: &[u16]) -> Sheet {
        self.codes = [0; MAX_EVENTS];
        for (place, &code) in self.codes.iter_mut().zip(codes) {
            *place = code;
        }
        self
    }

    /// A kept sheet from its nodes, each with its successors and its sets; its codes are
    /// those of version 1. Nothing is checked here beyond what the places can hold.
    pub fn build<S: AsRef<[u8]>, A: AsRef<[u16]>>(e: u8, nodes: &[(S, A)]) -> Sheet {
        let mut sheet = Sheet {
            rows: [Row::UNUSED; MAX_NODES],
            e,
            n: nodes.len() as u8,
            codes: [0; MAX_EVENTS],
        };
        for (row, (succ, sets)) in sheet.rows.iter_mut().zip(nodes) {
            let (succ, sets) = (succ.as_ref(), sets.as_ref());
            for (place, &value) in row.succ.iter_mut().zip(succ) {
                *place = value;
            }
            for (place, &value) in row.sets.iter_mut().zip(sets) {
                *place = value;
            }
            row.c = sets.len() as u8;
        }
        sheet.with_codes(&first_codes(e))
    }
}

/// The codes of a version 1 sheet of `e` events: i + 1 for event i.
pub fn first_codes(e: u8) -> Vec<u16> {
    (0..u16::from(e)).map(|event| event + 1).collect()
}

/// Whether the codes of a sheet are those of version 1.
pub fn has_first_codes(sheet: &Sheet) -> bool {
    sheet.used_codes() == first_codes(sheet.e)
}

/// Whether two sheets of equal E give each event the same code.
pub fn codes_agree(one: &Sheet, other: &Sheet) -> bool {
    (0..one.e as usize).all(|event| one.codes[event] == other.codes[event])
}

/// Reads a sheet: the kept sheet, or the number of the refusal (1 to 8, 18).
pub fn read(bytes: &[u8]) -> Result<Sheet, u8> {
    let answer = read_with(Fault::None, bytes);
    match answer.number {
        0 => Ok(answer.sheet),
        number => Err(number),
    }
}

/// Checks a kept sheet with any content again: 0, or the refusal 3, 18, 5, 6, 7 or 8.
pub fn check(sheet: &Sheet) -> u8 {
    check_with(Fault::None, sheet)
}

/// The check as a result, so that a call can stop at a refusal.
pub fn accept(sheet: &Sheet) -> Result<(), u8> {
    match check(sheet) {
        0 => Ok(()),
        number => Err(number),
    }
}

/// The bytes of a sheet in version 1 or 2. Reading the bytes of an accepted sheet gives it
/// back in version 2, and in version 1 if it has the codes of that version.
/// Of a sheet that is not accepted the heads are written as they are, and as many
/// codes, nodes, successors and sets as there are places.
pub fn encode(version: u8, sheet: &Sheet) -> Vec<u8> {
    let mut bytes = vec![0, 0, 0, 0, version, sheet.e, sheet.n];
    let events = (sheet.e as usize).min(MAX_EVENTS);
    if version == 2 {
        for code in sheet.used_codes() {
            bytes.extend_from_slice(&code.to_be_bytes());
        }
    }
    for row in sheet.rows.iter().take(sheet.n as usize) {
        bytes.extend_from_slice(&row.succ[..events]);
        bytes.push(row.c);
        for set in row.sets.iter().take(row.c as usize) {
            bytes.extend_from_slice(&set.to_be_bytes());
        }
    }
    let follow = (bytes.len() - 4) as u32;
    bytes[..4].copy_from_slice(&follow.to_be_bytes());
    bytes
}

/// The successor of a node of an accepted sheet on an event.
pub fn after(sheet: &Sheet, node: u8, event: u8) -> Option<u8> {
    if event >= sheet.e {
        return None;
    }
    match sheet.row(node).succ[event as usize] {
        NO_NODE => None,
        next => Some(next),
    }
}

/// The node reached from node 0 by a list of events, if there is such a walk.
pub fn walk(sheet: &Sheet, events: &[u8]) -> Option<u8> {
    events
        .iter()
        .try_fold(0, |node, &event| after(sheet, node, event))
}

/// A list of events is a trace exactly if it has a walk from node 0.
pub fn is_trace(sheet: &Sheet, events: &[u8]) -> bool {
    walk(sheet, events).is_some()
}
