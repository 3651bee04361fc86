//! Walks over flat tables.

use model::load::MAX_WALK;
use model::numbers::Walked;
use model::sheet::{MAX_EVENTS, MAX_NODES, NO_NODE};

use super::tables::{check, Tables};

/// The initials of each node, ascending, node v's from 12 v on, and how many it has.
struct Initials {
    events: [u8; MAX_NODES * MAX_EVENTS],
    counts: [u32; MAX_NODES],
}

impl Initials {
    fn of(sheet: &Tables) -> Initials {
        let mut initials = Initials {
            events: [0; MAX_NODES * MAX_EVENTS],
            counts: [0; MAX_NODES],
        };
        for v in 0..sheet.n as usize {
            let mut m = 0;
            for (event, &next) in sheet.row(v).iter().enumerate() {
                if next != NO_NODE {
                    initials.events[v * 12 + m] = event as u8;
                    m += 1;
                }
            }
            initials.counts[v] = m as u32;
        }
        initials
    }
}

/// Writes the walk that a seed makes.
pub fn walk(sheet: &Tables, seed: u32, wish: u16, out: &mut [u8]) -> Walked {
    let refusal = match check(sheet) {
        0 if seed == 0 => 27,
        0 if out.len() < wish as usize || wish > MAX_WALK => 28,
        number => number,
    };
    let length = match refusal {
        0 => walked(sheet, seed, &mut out[..wish as usize]),
        _ => 0,
    };
    Walked { refusal, length }
}

/// The length of a walk, which is put into the places.
fn walked(sheet: &Tables, seed: u32, places: &mut [u8]) -> u16 {
    let initials = Initials::of(sheet);
    let (mut v, mut state) = (0, seed);
    let mut length = 0;
    for place in places {
        let m = initials.counts[v];
        if m == 0 {
            break;
        }
        state ^= state << 13;
        state ^= state >> 17;
        state ^= state << 5;
        let event = initials.events[v * 12 + (state % m) as usize];
        *place = event;
        v = sheet.succ[v * 12 + event as usize] as usize;
        length += 1;
    }
    length
}
