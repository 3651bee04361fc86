//! The sheets of the written cases and of the theory's examples.

use crate::sheet::{Sheet, NO_NODE};

const NONE: u8 = NO_NODE;

/// The input of the program's example: reference, then device.
pub const PROGRAM_INPUT: [u8; 41] = [
    0x00, 0x00, 0x00, 0x0F, 0x01, 0x02, 0x02, 0x01, 0x01, 0x02, 0x00, 0x01, 0x00, 0x02, 0x00, 0x00,
    0x01, 0x00, 0x03, 0x00, 0x00, 0x00, 0x12, 0x01, 0x02, 0x03, 0x01, 0x01, 0x01, 0x00, 0x03, 0x02,
    0x02, 0x01, 0x00, 0x03, 0x00, 0xFF, 0x01, 0x00, 0x01,
];

/// The output of the program's example.
pub const PROGRAM_OUTPUT: &str = "reference 2 nodes 2 events
device 3 nodes 2 events
violates after 5 cleared 5
trace 0 0 0 0 0
refused 2 by 1
";

/// The pair of the program's example.
pub fn program_pair() -> (Sheet, Sheet) {
    let reference = Sheet::build(2, &[([1, 1], vec![1, 2]), ([0, 0], vec![3])]);
    let device = Sheet::build(2, &[([1, 1], [3]), ([2, 2], [3]), ([0, NONE], [1])]);
    (reference, device)
}

/// One node of two events that only loops on event 0, and one only on event 1.
pub fn stray_pair() -> (Sheet, Sheet) {
    let reference = Sheet::build(2, &[([0, NONE], [1])]);
    let device = Sheet::build(2, &[([NONE, 0], [2])]);
    (reference, device)
}

/// One node, one event, looping, with acceptance 0: it may stop.
pub fn may_stop() -> Sheet {
    Sheet::build(1, &[([0], [0])])
}

/// One node, one event, looping, with acceptance 1: it never stops.
pub fn never_stops() -> Sheet {
    Sheet::build(1, &[([0], [1])])
}

/// One node, one event, without successors, with acceptance 0.
pub fn stopped() -> Sheet {
    Sheet::build(1, &[([NONE], [0])])
}

/// The theory's Examples 1 and 3: the process P with its four nodes (Fig. 1).
pub fn example_3() -> Sheet {
    Sheet::build(
        3,
        &[
            ([1, NONE, NONE], vec![1]),
            ([0, 0, 2], vec![5, 6]),
            ([1, 0, 3], vec![1, 6]),
            ([NONE, 0, 3], vec![6]),
        ],
    )
}

/// The theory's Example 4: internal choice in the reference's first process and in the
/// device's third, external choice in all others.
pub fn example_4() -> (Sheet, Sheet) {
    let reference = Sheet::build(3, &[([1, 1, 1], vec![1, 2, 4]), ([0, 0, NONE], vec![3])]);
    let device = Sheet::build(
        3,
        &[
            ([1, 1, NONE], vec![3]),
            ([2, 2, NONE], vec![3]),
            ([0, 0, NONE], vec![1, 2]),
        ],
    );
    (reference, device)
}

/// The theory's Example 5: the implementation Z, normalised, for a greatest count of
/// recursions r of 2 or more (Fig. 3 has r = 3). Nodes: Z; then the choice of Q1 and
/// R1(0); then Z or R1(1); then R1(2) to R1(r), the last with an internal choice.
pub fn example_5(r: u8) -> Sheet {
    let mut nodes = vec![
        ([1, NONE, NONE], vec![1]),
        ([0, 0, 2], vec![5, 6]),
        ([1, 0, 3], vec![1, 6]),
    ];
    for count in 2..r {
        nodes.push(([NONE, 0, count + 2], vec![6]));
    }
    nodes.push(([NONE, 0, r + 1], vec![2, 4]));
    Sheet::build(3, &nodes)
}

/// The theory's Theorem 5: the reference does event 0 always and event 1 at most p - 1
/// times; the device does event 1 only at each q-th place. Both are deterministic.
pub fn theorem_5(p: u8, q: u8) -> (Sheet, Sheet) {
    let reference: Vec<([u8; 2], [u16; 1])> = (0..p)
        .map(|k| {
            if k < p - 1 {
                ([k, k + 1], [3])
            } else {
                ([k, NONE], [1])
            }
        })
        .collect();
    let device: Vec<([u8; 2], [u16; 1])> = (0..q)
        .map(|k| {
            if k < q - 1 {
                ([k + 1, NONE], [1])
            } else {
                ([0, 0], [3])
            }
        })
        .collect();
    (Sheet::build(2, &reference), Sheet::build(2, &device))
}

/// Theorem 5's pair with a reference that is bound only to event 0. Then no refusal
/// comes before the stray, and the bound is reached with refusals counted too.
pub fn theorem_5_lenient(p: u8, q: u8) -> (Sheet, Sheet) {
    let (mut reference, device) = theorem_5(p, q);
    for row in reference.rows.iter_mut().take(p as usize) {
        row.sets[0] = 1;
    }
    (reference, device)
}
