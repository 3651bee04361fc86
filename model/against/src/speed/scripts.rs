//! Counts of scripts over flat tables.

use model::numbers::Scripts;
use model::sheet::{MAX_NODES, NO_NODE};

use super::pairs::pair_fault;
use super::tables::Tables;

/// Walked, device stops and reference stops, each at every pair of nodes, coded q v + w.
type Counts = [[u64; MAX_NODES * MAX_NODES]; 3];

/// Counts the scripts of some length.
pub fn count(reference: &Tables, device: &Tables, length: u16) -> Scripts {
    let refusal = match pair_fault(reference, device) {
        0 if length > 16 => 20,
        number => number,
    };
    let [walked, device, reference] = match refusal {
        0 => worked(reference, device, length),
        _ => [0; 3],
    };
    Scripts {
        refusal,
        walked,
        device,
        reference,
    }
}

/// The counts at the start, from two tables that change places.
fn worked(reference: &Tables, device: &Tables, length: u16) -> [u64; 3] {
    let mut one: Counts = [[0; MAX_NODES * MAX_NODES]; 3];
    let mut other = one;
    one[0].fill(1);
    let (mut now, mut next) = (&mut one, &mut other);
    let mut stop = 1;
    for _ in 0..length {
        longer(reference, device, stop, now, next);
        (now, next) = (next, now);
        stop *= u64::from(reference.e);
    }
    [now[0][0], now[1][0], now[2][0]]
}

/// The counts for one event more; a stop counts as given.
fn longer(reference: &Tables, device: &Tables, stop: u64, from: &Counts, to: &mut Counts) {
    let (p, q) = (reference.n as usize, device.n as usize);
    for v in 0..p {
        let mine = reference.row(v);
        for w in 0..q {
            let mut sums = [0; 3];
            for (&a, &b) in mine.iter().zip(device.row(w)) {
                if b == NO_NODE {
                    sums[1] += stop;
                } else if a == NO_NODE {
                    sums[2] += stop;
                } else {
                    let pair = a as usize * q + b as usize;
                    sums[0] += from[0][pair];
                    sums[1] += from[1][pair];
                    sums[2] += from[2][pair];
                }
            }
            for (table, sum) in to.iter_mut().zip(sums) {
                table[v * q + w] = sum;
            }
        }
    }
}
