//! Random run records and reports, good and bad.

use super::Rng;
use crate::sheet::Sheet;
use crate::tests::{Report, Run};

/// A random record: mostly one that the sheet admits, else ended, or with a node, a
/// depth or a test number out of range.
pub fn random_record(rng: &mut Rng, sheet: &Sheet) -> Run {
    let k = rng.pick(&[0, 1, 2, 5, 1_022, 1_023]);
    let deep = rng.one_in(2);
    let depth = if deep {
        k
    } else {
        rng.below(k as usize + 1) as u16
    };
    let mut run = Run {
        k,
        h: if rng.one_in(2) {
            rng.word()
        } else {
            rng.below(40) as u16
        },
        trace_only: rng.one_in(4),
        ended: rng.one_in(10),
        node: rng.below((sheet.n as usize).max(1)) as u8,
        depth,
    };
    match rng.below(12) {
        0 => run.node = rng.pick(&[sheet.n, 32, 255]),
        1 => run.depth = rng.pick(&[k + 1, 1_024, 65_535]),
        2 => run.k = rng.pick(&[1_024, 1_025, 65_535]),
        _ => {}
    }
    run
}

/// A random report: blocked, an event of the sheet, or one out of range.
pub fn random_report(rng: &mut Rng, sheet: &Sheet) -> Report {
    match rng.below(6) {
        0 => Report::Blocked,
        1 => Report::Event(rng.pick(&[sheet.e, 12, 13, 15, 16, 255])),
        _ => Report::Event(rng.below((sheet.e as usize).max(1)) as u8),
    }
}
