//! How many scripts go where: all sequences of L events, counted by what becomes of them on
//! two sheets.

use std::collections::BTreeMap;

use crate::sheet::{after, Sheet};
use crate::verdict::admit_pair;

/// The most events of a script.
pub const MAX_SCRIPT: u16 = 16;

/// Up to this many scripts are walked one by one.
const FEW: u64 = 4_096;

/// What becomes of a script.
#[derive(Clone, Copy, PartialEq, Eq, Debug)]
pub enum Fate {
    /// Walked by both to the end.
    Walked,
    /// Stopped first at an event that the device cannot do.
    DeviceStops,
    /// Stopped first at an event that the device can do and the reference cannot.
    ReferenceStops,
}

/// How many scripts there are of each fate.
#[derive(Clone, Copy, PartialEq, Eq, Debug)]
pub struct Counts {
    pub walked: u64,
    pub device: u64,
    pub reference: u64,
}

impl Counts {
    /// No scripts.
    pub const NONE: Counts = Counts {
        walked: 0,
        device: 0,
        reference: 0,
    };

    /// So many scripts more of one fate.
    fn add(&mut self, fate: Fate, scripts: u64) {
        match fate {
            Fate::Walked => self.walked += scripts,
            Fate::DeviceStops => self.device += scripts,
            Fate::ReferenceStops => self.reference += scripts,
        }
    }
}

/// The counts of all scripts of `length` events, or the refusal: the reference's, the
/// device's, 11, 19, 20.
pub fn count(reference: &Sheet, device: &Sheet, length: u16) -> Result<Counts, u8> {
    admit_pair(reference, device)?;
    if length > MAX_SCRIPT {
        return Err(20);
    }
    Ok(match are_few(reference.e, length) {
        true => one_by_one(reference, device, length),
        false => by_pairs(reference, device, length),
    })
}

/// Whether the scripts of `length` events are few enough to be walked one by one.
pub fn are_few(e: u8, length: u16) -> bool {
    scripts(e, length) <= FEW
}

/// How many scripts of `length` events there are: E to the power L.
pub fn scripts(e: u8, length: u16) -> u64 {
    u64::from(e).pow(u32::from(length))
}

/// What becomes of a script on two accepted sheets: its events are tried in order, each
/// on the device and then on the reference, until one of them cannot do it.
pub fn fate(reference: &Sheet, device: &Sheet, script: &[u8]) -> Fate {
    let (mut a, mut b) = (0, 0);
    for &event in script {
        match (after(device, b, event), after(reference, a, event)) {
            (None, _) => return Fate::DeviceStops,
            (Some(_), None) => return Fate::ReferenceStops,
            (Some(theirs), Some(mine)) => (a, b) = (mine, theirs),
        }
    }
    Fate::Walked
}

/// The counts by walking every script, one by one.
pub fn one_by_one(reference: &Sheet, device: &Sheet, length: u16) -> Counts {
    let mut counts = Counts::NONE;
    let mut script = vec![0; usize::from(length)];
    loop {
        counts.add(fate(reference, device, &script), 1);
        if !advance(reference.e, &mut script) {
            return counts;
        }
    }
}

/// Makes a script the next one in dictionary order; false after the last.
fn advance(e: u8, script: &mut [u8]) -> bool {
    for event in script.iter_mut().rev() {
        *event += 1;
        if *event < e {
            return true;
        }
        *event = 0;
    }
    false
}

/// The counts from the front: how many scripts lead both sheets to each pair of nodes, event
/// after event. Where one of them cannot do an event, every way to go on is stopped there.
pub fn by_pairs(reference: &Sheet, device: &Sheet, length: u16) -> Counts {
    let mut counts = Counts::NONE;
    let mut reached = BTreeMap::from([((0, 0), 1)]);
    for left in (0..length).rev() {
        let mut next = BTreeMap::new();
        for (&(a, b), &ways) in &reached {
            for event in 0..reference.e {
                match (after(device, b, event), after(reference, a, event)) {
                    (None, _) => counts.add(Fate::DeviceStops, ways * scripts(reference.e, left)),
                    (_, None) => {
                        counts.add(Fate::ReferenceStops, ways * scripts(reference.e, left))
                    }
                    (Some(theirs), Some(mine)) => *next.entry((mine, theirs)).or_insert(0) += ways,
                }
            }
        }
        reached = next;
    }
    counts.add(Fate::Walked, reached.values().sum());
    counts
}
