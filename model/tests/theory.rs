//! The examples and bounds of the theory.

mod common;

use common::{compared, fails};
use model::comparison::{Named, Outcome};
use model::examples::*;
use model::probes::{probes, probes_of};
use model::sheet::{check, Sheet, NO_NODE};

fn violates(d: u16, outcome: &Outcome) -> (Vec<u8>, Named) {
    match outcome {
        Outcome::Violates {
            d: found,
            trace,
            named,
            ..
        } => {
            assert_eq!(*found, d);
            assert_eq!(trace.len(), d as usize);
            (trace.clone(), *named)
        }
        Outcome::Refines { .. } => panic!("refines"),
    }
}

/// Example 2: the greatest refusals of Stop or Q, and of a choice of two pairs.
#[test]
fn refusals_of_example_2() {
    let n = NO_NODE;
    let stop_or = Sheet::build(4, &[([1, 1, 1, 1], vec![0]), ([n, n, n, n], vec![0])]);
    assert_eq!(check(&stop_or), 0);
    assert!((0..16).all(|set| stop_or.row(0).may_refuse(set)));
    assert_eq!(stop_or.initials(0), 15);
    assert_eq!(probes(&stop_or, 0), []);
    let choice = Sheet::build(4, &[([1, 1, 1, 1], vec![3, 12]), ([n, n, n, n], vec![0])]);
    assert_eq!(check(&choice), 0);
    let refused: Vec<u16> = (0..16)
        .filter(|&set| choice.row(0).may_refuse(set))
        .collect();
    assert_eq!(refused, [0, 1, 2, 3, 4, 8, 12]);
    assert_eq!(probes(&choice, 0), [5, 6, 9, 10]);
}

/// Example 3 and the table of section 6: initials, probes (the small ones first) and successors.
#[test]
fn section_6_table() {
    let sheet = example_3();
    assert_eq!(check(&sheet), 0);
    let initials: Vec<u16> = (0..4).map(|node| sheet.initials(node)).collect();
    assert_eq!(initials, [1, 7, 7, 6]);
    assert_eq!(probes(&sheet, 0), [1]);
    assert_eq!(probes(&sheet, 1), [4, 3]);
    assert_eq!(probes(&sheet, 2), [3, 5]);
    assert_eq!(probes(&sheet, 3), [2, 4]);
    assert!(matches!(
        compared(&sheet, &sheet, false),
        Outcome::Refines { cleared: 4 }
    ));
}

/// Example 4: passes tests 0 to 4 and fails 5; by traces alone it refines.
#[test]
fn example_4_is_found_at_5() {
    let (reference, device) = example_4();
    assert_eq!((check(&reference), check(&device)), (0, 0));
    let verdicts: Vec<bool> = (0..6)
        .map(|k| fails(&reference, &device, k, false))
        .collect();
    assert_eq!(verdicts, [false, false, false, false, false, true]);
    let (trace, named) = violates(5, &compared(&reference, &device, false));
    assert_eq!(trace, [0; 5]);
    assert_eq!(
        named,
        Named::Refused {
            probe: 1,
            acceptance: 2
        }
    );
    assert_eq!(
        compared(&reference, &device, true),
        Outcome::Refines { cleared: 6 }
    );
    assert!((0..8).all(|k| !fails(&reference, &device, k, true)));
}

/// Example 5: Z passes tests 0 to 3 and fails 4 after a, c, c, c; and so for other r.
#[test]
fn example_5_is_found_at_r_plus_1() {
    let reference = example_3();
    for r in 2..=29u8 {
        let device = example_5(r);
        assert_eq!((check(&device), device.n), (0, r + 2));
        let d = u16::from(r) + 1;
        assert!((0..d).all(|k| !fails(&reference, &device, k, false)));
        assert!(fails(&reference, &device, d, false));
        let (trace, named) = violates(d, &compared(&reference, &device, false));
        assert_eq!(trace, [&[0u8][..], &vec![2; r as usize]].concat());
        assert_eq!(
            named,
            Named::Refused {
                probe: 2,
                acceptance: 4
            }
        );
        let both_ways = [(&reference, &device), (&device, &reference)];
        for (a, b) in both_ways {
            assert!(matches!(compared(a, b, true), Outcome::Refines { .. }));
        }
    }
}

/// Theorem 4: the greatest number of probes is reached.
#[test]
fn theorem_4_bound_is_reached() {
    for (n, most) in [
        (2u8, 2),
        (3, 3),
        (4, 6),
        (5, 10),
        (6, 20),
        (9, 126),
        (12, 924),
    ] {
        let size = u32::from(n - n / 2 + 1);
        let sets: Vec<u16> = (0..1u16 << n)
            .filter(|set| set.count_ones() == size)
            .collect();
        let found = probes_of(&sets, n);
        assert_eq!(found.len(), most);
        assert!(found.iter().all(|set| set.count_ones() == u32::from(n / 2)));
    }
}

/// Theorem 5: by traces the violation comes after p·q - 1 events, not sooner; and the
/// same with refusals counted if the reference is bound only to event 0.
#[test]
fn theorem_5_bound_is_reached() {
    for (p, q) in (2..=6)
        .flat_map(|p| (2..=6).map(move |q| (p, q)))
        .chain([(32, 32)])
    {
        let bound = u16::from(p) * u16::from(q) - 1;
        for (pair, trace_only) in [(theorem_5(p, q), true), (theorem_5_lenient(p, q), false)] {
            let (reference, device) = pair;
            assert_eq!((check(&reference), check(&device)), (0, 0));
            let (trace, named) = violates(bound, &compared(&reference, &device, trace_only));
            assert_eq!(named, Named::Stray(1));
            let ones = trace.iter().filter(|&&event| event == 1).count();
            assert_eq!(ones, p as usize - 1);
            assert!(!fails(&reference, &device, bound - 1, trace_only));
            assert!(fails(&reference, &device, bound, trace_only));
        }
    }
}

/// Theorem 5's own pair with refusals counted fails at once: the device may refuse
/// event 1 where the deterministic reference does not.
#[test]
fn theorem_5_with_refusals() {
    let (reference, device) = theorem_5(3, 4);
    let (_, named) = violates(0, &compared(&reference, &device, false));
    assert_eq!(
        named,
        Named::Refused {
            probe: 2,
            acceptance: 1
        }
    );
    assert!(fails(&reference, &device, 0, false));
}
