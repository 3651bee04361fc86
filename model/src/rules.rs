//! The rules of a sheet, written once for bytes and for kept sheets, each with the
//! faults that can be planted in it.

use crate::faults::Fault;
use crate::sheet::{first_codes, Row, Sheet, MAX_EVENTS, MAX_NODES, NO_NODE};

/// A node as it was found, with no bound on its parts.
pub struct Node {
    succ: Vec<u8>,
    sets: Vec<u16>,
}

/// What was read: E, the codes of the events, and the nodes.
pub struct Found {
    e: u8,
    codes: Vec<u16>,
    nodes: Vec<Node>,
}

/// All checks of a reading in their order: 1 to 3, the codes, the nodes, 6 to 8.
pub fn read_nodes(fault: Fault, bytes: &[u8]) -> Result<Found, u8> {
    let unknown = |&version: &u8| !version_known(fault, version);
    if fault == Fault::VersionBeforeLength && bytes.get(4).is_some_and(unknown) {
        return Err(2);
    }
    if bytes.len() < 7 {
        return Err(1);
    }
    let field = u64::from(u32::from_be_bytes([bytes[0], bytes[1], bytes[2], bytes[3]]));
    let whole = match fault {
        Fault::LengthWithoutFour => field,
        Fault::LengthTwoBytes => field % 65_536 + 4,
        _ => field + 4,
    };
    if whole != bytes.len() as u64 {
        return Err(1);
    }
    let (version, e, n) = (bytes[4], bytes[5], bytes[6]);
    if fault == Fault::RangesBeforeVersion {
        check_ranges(fault, e, n)?;
    }
    if !version_known(fault, version) {
        return Err(2);
    }
    if fault == Fault::CodesBeforeRanges {
        check_codes(fault, &codes_of(fault, version, e, &bytes[7..])?)?;
    }
    check_ranges(fault, e, n)?;
    let codes = codes_of(fault, version, e, &bytes[7..])?;
    if fault != Fault::TwiceAfterNodes {
        check_codes(fault, &codes)?;
    }
    let nodes = walk_nodes(fault, &bytes[nodes_at(fault, version, e)..], e, n)?;
    if fault == Fault::TwiceAfterNodes {
        check_codes(fault, &codes)?;
    }
    check_successors(fault, &nodes)?;
    check_sets_and_reach(fault, &nodes, false)?;
    Ok(Found { e, codes, nodes })
}

/// All checks of a kept sheet in their order: 3, 18, 5 to 8. The rows that are not used,
/// and the unused places of the others, take part in 7 only; so do unused codes.
pub fn check_kept(fault: Fault, sheet: &Sheet) -> Result<(), u8> {
    let (codes, unused_codes) = sheet.codes.split_at((sheet.e as usize).min(MAX_EVENTS));
    if fault == Fault::CodesBeforeRanges {
        check_codes(fault, codes)?;
    }
    check_ranges(fault, sheet.e, sheet.n)?;
    if fault != Fault::TwiceAfterNodes {
        check_codes(fault, codes)?;
    }
    let wrong_code = unused_codes.iter().any(|&code| code != 0);
    if fault == Fault::UnusedCodeEighteen && wrong_code {
        return Err(18);
    }
    let (used, unused) = sheet.rows.split_at((sheet.n as usize).min(MAX_NODES));
    let nodes: Vec<Node> = used.iter().map(|row| used_part(row, sheet.e)).collect();
    if fault == Fault::SuccessorsBeforeCounts {
        check_successors(fault, &nodes)?;
    }
    if !used.iter().all(|row| count_fits(fault, row.c)) {
        return Err(5);
    }
    if fault == Fault::UnusedCountFive && unused.iter().any(|row| row.c > 16) {
        return Err(5);
    }
    if fault == Fault::TwiceAfterNodes {
        check_codes(fault, codes)?;
    }
    check_successors(fault, &nodes)?;
    let wrong = |row: &Row, e: usize| row.succ[e..].iter().any(|&next| next != NO_NODE);
    let events = (sheet.e as usize).min(MAX_EVENTS);
    let wrong_successor =
        used.iter().any(|row| wrong(row, events)) || unused.iter().any(|row| wrong(row, 0));
    if fault == Fault::UnusedSuccessorSix && wrong_successor {
        return Err(6);
    }
    let wrong_set =
        used.iter().any(|row| set_from(row, row.c)) || unused.iter().any(|row| set_from(row, 0));
    let wrong_count = unused.iter().any(|row| row.c != 0);
    let wrong_place = wrong_successor && fault != Fault::UnusedSuccessorIgnored
        || wrong_set && fault != Fault::UnusedSetIgnored
        || wrong_count && fault != Fault::UnusedCountIgnored
        || wrong_code && fault != Fault::UnusedCodeIgnored;
    check_sets_and_reach(fault, &nodes, wrong_place)
}

/// Whether a set place from number `c` on holds something else than 0.
fn set_from(row: &Row, c: u8) -> bool {
    row.sets.iter().skip(c as usize).any(|&set| set != 0)
}

/// 3: E is 1 to 12 and N is 1 to 32.
fn check_ranges(fault: Fault, e: u8, n: u8) -> Result<(), u8> {
    let least_events = if fault == Fault::EventsZero { 0 } else { 1 };
    let most_events = if fault == Fault::EventsThirteen {
        13
    } else {
        12
    };
    let most_nodes = if fault == Fault::NodesThirtyThree {
        33
    } else {
        32
    };
    if (least_events..=most_events).contains(&e) && (1..=most_nodes).contains(&n) {
        Ok(())
    } else {
        Err(3)
    }
}

/// 2: the version is 1 or 2.
fn version_known(fault: Fault, version: u8) -> bool {
    match fault {
        Fault::VersionIgnored => true,
        Fault::VersionTwoRefused => version == 1,
        Fault::VersionThreeAccepted => (1..=3).contains(&version),
        _ => version == 1 || version == 2,
    }
}

/// Whether the bytes of a version have codes.
fn has_codes(fault: Fault, version: u8) -> bool {
    version == 2 || fault == Fault::VersionThreeAccepted && version == 3
}

/// Where the nodes begin.
fn nodes_at(fault: Fault, version: u8, e: u8) -> usize {
    match fault {
        Fault::NodesAtSeven => 7,
        _ if has_codes(fault, version) => 7 + 2 * e as usize,
        _ => 7,
    }
}

/// The codes of the E events from the bytes after N, or i + 1 for event i where the version
/// has none. 4: they are cut off.
fn codes_of(fault: Fault, version: u8, e: u8, bytes: &[u8]) -> Result<Vec<u16>, u8> {
    if !has_codes(fault, version) {
        return Ok(match fault {
            Fault::FirstCodesFromZero => (0..u16::from(e)).collect(),
            Fault::FirstCodesInAllPlaces => first_codes(MAX_EVENTS as u8),
            _ => first_codes(e),
        });
    }
    let word = |b: &[u8]| match fault {
        Fault::CodesLowByteFirst => u16::from_le_bytes([b[0], b[1]]),
        _ => u16::from_be_bytes([b[0], b[1]]),
    };
    let codes: Vec<u16> = bytes.chunks_exact(2).take(e as usize).map(word).collect();
    if fault == Fault::TwiceBeforeCut {
        check_codes(fault, &codes)?;
    }
    if codes.len() < e as usize {
        return Err(4);
    }
    Ok(codes)
}

/// 18: two different events have one code.
fn check_codes(fault: Fault, codes: &[u16]) -> Result<(), u8> {
    let looked = match fault {
        Fault::TwiceIgnored => &[],
        Fault::TwiceWithoutLast => &codes[..codes.len().saturating_sub(1)],
        _ => codes,
    };
    let mut looked = looked.to_vec();
    if fault == Fault::TwiceInAllPlaces {
        looked.resize(looked.len().max(MAX_EVENTS), 0);
    }
    let same = |i: usize, j: usize| match fault {
        Fault::TwiceNeighbours => i + 1 == j && looked[i] == looked[j],
        Fault::TwiceLowByte => looked[i] % 256 == looked[j] % 256,
        _ => looked[i] == looked[j],
    };
    let twice = (0..looked.len()).any(|j| (0..j).any(|i| same(i, j)));
    let zero = fault == Fault::CodeZeroRefused && codes.contains(&0);
    if twice || zero {
        Err(18)
    } else {
        Ok(())
    }
}

/// 5: C is 1 to 16.
fn count_fits(fault: Fault, c: u8) -> bool {
    (1..=16).contains(&c)
        || fault == Fault::CountSeventeen && c == 17
        || fault == Fault::CountZero && c == 0
}

/// 4 and 5: one walk from the front over the bytes after the head.
fn walk_nodes(fault: Fault, bytes: &[u8], e: u8, n: u8) -> Result<Vec<Node>, u8> {
    let mut rest = bytes;
    let mut nodes = Vec::new();
    for _ in 0..n {
        let (node, length) = node_at_front(fault, rest, e as usize)?;
        nodes.push(node);
        rest = &rest[length..];
    }
    if rest.is_empty() || fault == Fault::RestIgnored {
        Ok(nodes)
    } else {
        Err(4)
    }
}

/// One node from the front of the bytes, with its length. C is judged at its own
/// byte, before it is known whether its sets are all there.
fn node_at_front(fault: Fault, bytes: &[u8], e: usize) -> Result<(Node, usize), u8> {
    let succ = bytes.get(..e).ok_or(4)?;
    let c = *bytes.get(e).ok_or(4)?;
    let end = e + 1 + 2 * c as usize;
    if fault == Fault::FitBeforeCount && end > bytes.len() {
        return Err(4);
    }
    if !count_fits(fault, c) {
        return Err(5);
    }
    let pairs = bytes.get(e + 1..end).ok_or(4)?.chunks(2);
    let word = |b: &[u8]| match fault {
        Fault::SetsLowByteFirst => u16::from_le_bytes([b[0], b[1]]),
        _ => u16::from_be_bytes([b[0], b[1]]),
    };
    let node = Node {
        succ: succ.to_vec(),
        sets: pairs.map(word).collect(),
    };
    Ok((node, end))
}

/// 6: every successor is 255 or below N.
fn check_successors(fault: Fault, nodes: &[Node]) -> Result<(), u8> {
    if fault == Fault::SetsBeforeSuccessors && !nodes.iter().all(|node| sets_good(fault, node)) {
        return Err(7);
    }
    let most = match fault {
        Fault::SuccessorEqualsNodes => nodes.len() + 1,
        _ => nodes.len(),
    };
    let good = |&next: &u8| next == NO_NODE || (next as usize) < most;
    if nodes.iter().all(|node| node.succ.iter().all(good)) {
        Ok(())
    } else {
        Err(6)
    }
}

/// 7, then 8. A wrong unused place of a kept sheet belongs to 7.
fn check_sets_and_reach(fault: Fault, nodes: &[Node], wrong_place: bool) -> Result<(), u8> {
    let reached = fault == Fault::ReachIgnored || all_reached(fault, nodes);
    if fault == Fault::ReachBeforeSets && !reached {
        return Err(8);
    }
    if wrong_place || !nodes.iter().all(|node| sets_good(fault, node)) {
        return Err(7);
    }
    if reached {
        Ok(())
    } else {
        Err(8)
    }
}

/// The set rules of one node: strictly ascending, inside the initials, none
/// includes another. That the empty set stands alone follows from the last.
fn sets_good(fault: Fault, node: &Node) -> bool {
    let sets = &node.sets;
    let initials = (0..node.succ.len())
        .filter(|&event| node.succ[event] != NO_NODE)
        .fold(0u16, |set, event| set | 1 << event);
    let rising = |pair: &[u16]| match fault {
        Fault::OrderNotStrict => pair[0] <= pair[1],
        Fault::OrderIgnored => pair[0] != pair[1],
        _ => pair[0] < pair[1],
    };
    let ascending = sets.windows(2).all(rising);
    let inside = fault == Fault::OutsideInitials || sets.iter().all(|set| set & !initials == 0);
    let apart = |i: usize, j: usize| {
        let (small, large) = (sets[i], sets[j]);
        let neighbours = i + 1 == j || j + 1 == i;
        small == large
            || small & !large != 0
            || fault == Fault::InclusionNeighbours && !neighbours
            || fault == Fault::EmptyNotAlone && small == 0
    };
    let count = sets.len();
    let antichain = (0..count).all(|i| (0..count).all(|j| i == j || apart(i, j)));
    ascending && inside && antichain
}

/// 8: rounds from node 0, each adding the successors of all nodes found before it.
/// After as many rounds as there are further nodes nothing new can come.
fn all_reached(fault: Fault, nodes: &[Node]) -> bool {
    let rounds = match fault {
        Fault::ReachRoundShort => nodes.len().saturating_sub(2),
        _ => nodes.len() - 1,
    };
    let mut found = vec![false; nodes.len()];
    found[0] = true;
    for _ in 0..rounds {
        let before = found.clone();
        for (node, _) in nodes.iter().zip(&before).filter(|(_, &known)| known) {
            let left_out = usize::from(fault == Fault::ReachEventShort);
            for &next in node.succ.iter().take(node.succ.len() - left_out) {
                if let Some(place) = found.get_mut(next as usize) {
                    *place = true;
                }
            }
        }
        if found == before {
            break;
        }
    }
    found.iter().all(|&known| known)
}

/// The places of a kept row that are in use.
fn used_part(row: &Row, e: u8) -> Node {
    Node {
        succ: row.succ.iter().take(e as usize).copied().collect(),
        sets: row.sets.iter().take(row.c as usize).copied().collect(),
    }
}

/// The kept form of what was accepted.
pub fn keep(fault: Fault, found: &Found) -> Sheet {
    let (e, nodes) = (found.e, &found.nodes);
    let pairs: Vec<(&[u8], &[u16])> = nodes
        .iter()
        .map(|node| (&node.succ[..], &node.sets[..]))
        .collect();
    let mut sheet = Sheet::build(e, &pairs);
    if fault != Fault::CodesNotKept {
        sheet = sheet.with_codes(&found.codes);
    }
    if fault == Fault::UnusedKeptZero {
        for row in sheet.rows.iter_mut().skip(nodes.len()) {
            row.succ = [0; MAX_EVENTS];
        }
    }
    if fault == Fault::UnusedEventKeptZero {
        for row in sheet.rows.iter_mut().take(nodes.len()) {
            row.succ
                .iter_mut()
                .skip(e as usize)
                .for_each(|place| *place = 0);
        }
    }
    if fault == Fault::EventsNodesExchanged {
        (sheet.e, sheet.n) = (sheet.n, sheet.e);
    }
    sheet
}
