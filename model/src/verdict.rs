//! The verdict on test k: the run rules played against a device.
//!
//! What can happen from a moment of a run on depends only on the depth, the node on
//! each sheet, and h. So it is enough to play each (depth, pair) once, however many
//! ways lead to it. The choice number matters only at depth k, where the offer has
//! the probe number (h remainder m): below it one h stands for all, and at depth k
//! the numbers 0 to m - 1 stand for all (one number, if m is 0 or the test is
//! trace-only). Any h keeps its value through a run, and nothing before depth k
//! depends on it, so each of these endings belongs to a whole run with that h.

use crate::probes::probes;
use crate::sheet::{accept, after, codes_agree, Row, Sheet, MAX_NODES};
use crate::tests::{advance, last_offer, test_number, Answer, Report, Run};

/// The verdict on a test.
#[derive(Clone, Copy, PartialEq, Eq, Debug)]
pub enum Verdict {
    Passes,
    Fails,
}

/// A set of pairs (reference node, device node).
type Pairs = [[bool; MAX_NODES]; MAX_NODES];

/// What the runs from one pair at one depth come to.
struct Played {
    failed: bool,
    next: Vec<(u8, u8)>,
}

/// A play of one test: both sheets, the test, and the probe list of each reference node.
struct Play<'a> {
    reference: &'a Sheet,
    device: &'a Sheet,
    trace_only: bool,
    lists: Vec<Vec<u16>>,
}

/// The verdict on test k, or the refusal: the reference's, the device's, 11, 19, 14.
pub fn verdict(reference: &Sheet, device: &Sheet, k: u16, trace_only: bool) -> Result<Verdict, u8> {
    admit_pair(reference, device)?;
    test_number(k)?;
    let play = Play::new(reference, device, trace_only);
    let mut layer = vec![(0u8, 0u8)];
    for depth in 0..=k {
        let mut next: Pairs = [[false; MAX_NODES]; MAX_NODES];
        for &pair in &layer {
            let played = play.pair(k, depth, pair);
            if played.failed {
                return Ok(Verdict::Fails);
            }
            mark(&mut next, &played.next);
        }
        layer = listed(&next);
    }
    Ok(Verdict::Passes)
}

/// The verdicts on tests 0 to `count` - 1 in one sweep over the depths. Test k plays
/// each depth below k by the same rules as any later test does, so a failure below
/// depth k is carried along, and only depth k itself is played anew for test k. What a
/// pair comes to does not depend on the depth, only on whether it is k; so it is kept.
pub fn verdicts(
    reference: &Sheet,
    device: &Sheet,
    count: u16,
    trace_only: bool,
) -> Result<Vec<Verdict>, u8> {
    admit_pair(reference, device)?;
    test_number(count.saturating_sub(1))?;
    let play = Play::new(reference, device, trace_only);
    let mut below: Vec<Option<Played>> = (0..MAX_NODES * MAX_NODES).map(|_| None).collect();
    let mut last: Vec<Option<bool>> = vec![None; MAX_NODES * MAX_NODES];
    let mut failed = false;
    let mut layer = vec![(0u8, 0u8)];
    let mut found = Vec::new();
    for _ in 0..count {
        let mut fails_here = failed;
        let mut next: Pairs = [[false; MAX_NODES]; MAX_NODES];
        for &pair in &layer {
            let place = pair.0 as usize * MAX_NODES + pair.1 as usize;
            fails_here |= *last[place].get_or_insert_with(|| play.pair(0, 0, pair).failed);
            let played = below[place].get_or_insert_with(|| play.pair(1, 0, pair));
            failed |= played.failed;
            mark(&mut next, &played.next);
        }
        found.push(if fails_here {
            Verdict::Fails
        } else {
            Verdict::Passes
        });
        layer = listed(&next);
    }
    Ok(found)
}

/// The checks on two sheets handed together: the reference, the device, 11, 19.
pub fn admit_pair(reference: &Sheet, device: &Sheet) -> Result<(), u8> {
    accept(reference)?;
    accept(device)?;
    if reference.e != device.e {
        return Err(11);
    }
    if !codes_agree(reference, device) {
        return Err(19);
    }
    Ok(())
}

/// The reports that a device node can give to an offer: any initial that is offered,
/// and blocked if an acceptance has no offered event.
pub fn device_reports(row: &Row, e: u8, offer: u16) -> Vec<Report> {
    let can = row.initials(e) & offer;
    let mut reports: Vec<Report> = (0..e)
        .filter(|event| can >> event & 1 == 1)
        .map(Report::Event)
        .collect();
    if row.may_refuse(offer) {
        reports.push(Report::Blocked);
    }
    reports
}

impl<'a> Play<'a> {
    fn new(reference: &'a Sheet, device: &'a Sheet, trace_only: bool) -> Self {
        let lists = (0..reference.n)
            .map(|node| probes(reference, node))
            .collect();
        Play {
            reference,
            device,
            trace_only,
            lists,
        }
    }

    /// The offer of a record, from the kept probe lists.
    fn offer(&self, run: &Run) -> u16 {
        if run.trace_only || run.depth < run.k {
            return self.reference.alphabet();
        }
        last_offer(self.reference, run, &self.lists[run.node as usize])
    }

    /// How many choice numbers are played at this depth.
    fn choices(&self, k: u16, depth: u16, node: u8) -> u16 {
        if depth < k || self.trace_only {
            return 1;
        }
        self.lists[node as usize].len().max(1) as u16
    }

    /// Plays every choice number and every report that the device can give at a pair.
    fn pair(&self, k: u16, depth: u16, (node, device_node): (u8, u8)) -> Played {
        let mut played = Played {
            failed: false,
            next: Vec::new(),
        };
        for h in 0..self.choices(k, depth, node) {
            let run = Run {
                k,
                h,
                trace_only: self.trace_only,
                ended: false,
                node,
                depth,
            };
            self.reports(&run, device_node, &mut played);
        }
        played
    }

    /// Plays every report that the device can give to the offer of one record.
    fn reports(&self, run: &Run, device_node: u8, played: &mut Played) {
        let row = self.device.row(device_node);
        let offer = |_: &Sheet, run: &Run| self.offer(run);
        for report in device_reports(&row, self.device.e, self.offer(run)) {
            let (answer, moved) = advance(self.reference, run, report, &offer);
            played.failed |= answer.failed();
            if let (Answer::Going(_), Report::Event(event)) = (answer, report) {
                let device_next = after(self.device, device_node, event);
                played
                    .next
                    .extend(device_next.map(|next| (moved.node, next)));
            }
        }
    }
}

fn mark(pairs: &mut Pairs, found: &[(u8, u8)]) {
    for &(node, device_node) in found {
        pairs[node as usize][device_node as usize] = true;
    }
}

fn listed(pairs: &Pairs) -> Vec<(u8, u8)> {
    let all = (0..MAX_NODES as u8).flat_map(|a| (0..MAX_NODES as u8).map(move |b| (a, b)));
    all.filter(|&(a, b)| pairs[a as usize][b as usize])
        .collect()
}
