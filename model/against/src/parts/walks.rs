//! Walks: seeds, wishes and lent lists of every kind on sheets where walks go on and where they
//! end, sooner or later, and on sheets that are refused. What the library answers is also held
//! against the laws of a walk.

use model::load::{event_after, initials, walk_of, MAX_WALK};
use model::numbers::{walk_numbers, Walked};
use model::planted::walks::{walk_with, WalkFault};
use model::random::{
    climbing_sheet, ending_sheet, full_sheet, kept, sheet_of_size, some_seed, some_wish,
    still_sheet, walk_places, walk_seed, walk_sheet, walk_wish, Rng, AIMS_KEPT,
};
use model::sheet::{check, has_first_codes, is_trace, walk, Sheet, MAX_EVENTS, MAX_NODES};

use super::{bad_sheet, catch, names, shown_sheet, KEPT};
use crate::edge;
use crate::findings::Findings;
use crate::play::Part;

const CALL: &str = "walk, 0 walked or the refusal";
const LENGTH: &str =
    "walked, 0 (0), 1 (1), 2 to 15 (2), 16 to 255 (3), 256 to 4095 (4), 4096 (5) events";
const EARLY: &str = "ended early, after 0 (0), 1 (1), 2 to 15 (2), 16 to 255 (3), more (4) events";
const SHORT_OF: &str = "ended early, one short of the wish (0), more (1)";
const WHOLE: &str = "not ended early, at a node with initials (0), without (1)";
const WISH: &str = "walked, wish 0 (0), 1 (1), 2 to 255 (2), 256 to 4094 (3), 4095 (4), 4096 (5)";
const LENT: &str =
    "walked, list exact (0), one more (1), up to 4096 (2), up to 65535 (3), longer (4)";
const SEED: &str = "walked, seed 1 (0), up to 255 (1), to 65535 (2), below 2 to the 31 (3), \
    below 2 to the 32 - 1 (4), it (5)";
const LOW: &str = "walked, low 16 bits of the seed 0 (0), not (1)";
const START: &str = "walked, by the initials at the start";
const CHANGE: &str = "walks of 2 events or more, one number of initials (0), different ones (1)";
const GAPS: &str = "walks of 1 event or more, each initial is its number (0), not (1)";
const STOPS: &str = "walks of 1 event or more, no node that may stop (0), one passed (1)";
const AGAIN: &str = "walks of 2 events or more, node 0 reached again (0), not (1)";
const CODES: &str = "walked on a sheet with the codes of version 1 (0), with others (1)";
const EVENTS: &str = "walked, by E";
const NODES: &str = "walked, 1 (0), 2 to 15 (1), 16 to 31 (2), 32 (3) nodes";
const ZERO: &str = "refused 27, no 28 (0), by the list (1), by the wish (2), by both (3)";
const ROOM: &str = "refused 28, by the list (1), by the wish (2), by both (3)";
const SHORT: &str =
    "refused 28 by the list alone, none (0), one short (1), shorter (2) where the walk is longer; \
    so (3, 4, 5) where it has room";
const FAR: &str = "refused 28 by the wish alone, 4097 (0), low 13 bits up to 4096 (1), other (2); \
    so (3, 4, 5) where the walk has less";
const SHEET: &str = "refused sheets, 100 times the refusal and what else would be refused: \
    0, 27, 28, 55 both";
const FRONT: &str =
    "walks repeated, with the wish again (0), a shorter one (1), one shorter than the walk (2)";

pub const PART: Part = Part {
    name: "walks",
    rounds: 3_000,
    findings,
    round,
    demands: |_| {},
};

fn findings() -> Findings {
    let groups = vec![
        (CALL, vec![0, 3, 5, 6, 7, 8, 18, 27, 28]),
        (LENGTH, (0..=5).collect()),
        (EARLY, (0..=4).collect()),
        (SHORT_OF, vec![0, 1]),
        (WHOLE, vec![0, 1]),
        (WISH, (0..=5).collect()),
        (LENT, (0..=4).collect()),
        (SEED, (0..=5).collect()),
        (LOW, vec![0, 1]),
        (START, (0..=MAX_EVENTS as u64).collect()),
        (CHANGE, vec![0, 1]),
        (GAPS, vec![0, 1]),
        (STOPS, vec![0, 1]),
        (AGAIN, vec![0, 1]),
        (CODES, vec![0, 1]),
        (EVENTS, (1..=MAX_EVENTS as u64).collect()),
        (NODES, (0..=3).collect()),
        (ZERO, (0..=3).collect()),
        (ROOM, vec![1, 2, 3]),
        (SHORT, (0..=5).collect()),
        (FAR, (0..=5).collect()),
        (SHEET, sheets()),
        (FRONT, vec![0, 1, 2]),
    ];
    Findings::new(groups, names(WalkFault::ALL))
}

/// The classes of refused sheets.
fn sheets() -> Vec<u64> {
    let others = [0, 27, 28, 55];
    let pairs = KEPT
        .iter()
        .flat_map(|&number| others.map(|other| (number, other)));
    pairs.map(|(number, other)| 100 * number + other).collect()
}

/// Walks that are not refused on sheets of each kind; any calls on accepted sheets; right calls,
/// seed 0, a list or a wish that is refused and both, in turn, on an accepted sheet and on each kind
/// of refused sheet; and any sheet.
fn round(rng: &mut Rng, round: u64, findings: &mut Findings) {
    let turn = round as usize;
    let n = match turn % 4 {
        0 => rng.range(16, MAX_NODES),
        1 => rng.range(4, 15),
        _ => rng.range(1, 6),
    };
    let sheet = match turn % 8 {
        0 => full_sheet(rng),
        4 => still_sheet(rng),
        _ => sheet_of_size(rng, 1 + turn % MAX_EVENTS, n),
    };
    for sheet in [sheet, ending_sheet(rng), climbing_sheet(rng)] {
        let call = (some_seed(rng), some_wish(rng));
        let places = usize::from(call.1) + rng.pick(&[0, 0, 1, 2, 30, 5_000]);
        try_walk(rng, findings, &sheet, call, places);
    }
    for _ in 0..3 {
        let sheet = walk_sheet(rng);
        let call = (walk_seed(rng), walk_wish(rng));
        let places = walk_places(rng, call.1);
        try_walk(rng, findings, &sheet, call, places);
    }
    let sheet = walk_sheet(rng);
    let (call, places) = refused_call(rng, round % 4);
    try_walk(rng, findings, &sheet, call, places);
    let bad = kept(rng, AIMS_KEPT[turn % AIMS_KEPT.len()]);
    let (call, places) = refused_call(rng, round / AIMS_KEPT.len() as u64 % 4);
    try_walk(rng, findings, &bad, call, places);
    count_refused_sheet(findings, &bad, call, places);
    let any = bad_sheet(rng);
    let call = (walk_seed(rng), walk_wish(rng));
    let places = walk_places(rng, call.1);
    try_walk(rng, findings, &any, call, places);
}

/// A seed, a wish and the length of a list: right ones (0), seed 0 (1), a list that is too short, a
/// wish over 4,096 or both (2), seed 0 with one of these (3).
fn refused_call(rng: &mut Rng, aim: u64) -> ((u32, u16), usize) {
    let seed = if aim % 2 == 1 { 0 } else { some_seed(rng) };
    let mut wish = some_wish(rng);
    if aim < 2 {
        return ((seed, wish), wish.into());
    }
    let way = rng.below(3);
    if way > 0 {
        wish = rng.pick(&[MAX_WALK + 1, 8_192 + wish, u16::MAX]);
    }
    let wish = wish.max(1);
    let places = match way {
        1 => wish.into(),
        _ => rng.pick(&[0, usize::from(wish) - 1, usize::from(wish) / 2]),
    };
    ((seed, wish), places)
}

/// One walk by the library, by the model, and by each fault that is not caught yet; the whole
/// contents of the lent list are compared too.
fn try_walk(
    rng: &mut Rng,
    findings: &mut Findings,
    sheet: &Sheet,
    (seed, wish): (u32, u16),
    places: usize,
) {
    let lent: Vec<u8> = (0..places).map(|_| rng.byte()).collect();
    let mut ours = lent.clone();
    let answer = edge::walk(sheet, seed, wish, &mut ours);
    let mut models = lent.clone();
    let model = walk_numbers(sheet, seed, wish, &mut models);
    findings.compared(answer == model && ours == models, || {
        let from = (0..places).find(|&place| ours[place] != models[place]);
        let from = from.unwrap_or(0);
        format!(
            "walk of {wish} from {seed} with {places} places of {}: model {model:?}, library \
            {answer:?}, from place {from} on model {:?}, library {:?}",
            shown_sheet(sheet),
            shown(&models[from..]),
            shown(&ours[from..])
        )
    });
    findings.count(CALL, u64::from(model.refusal));
    let call = (seed, wish);
    match model.refusal {
        0 => {
            hold(rng, findings, sheet, call, answer, &ours);
            let events = &models[..model.length.into()];
            count_walk(findings, sheet, call, places, events);
        }
        27 => findings.count(ZERO, room_class(wish, places)),
        28 => count_room(findings, sheet, call, places),
        _ => {}
    }
    catch(findings, WalkFault::ALL, |fault| {
        let mut other = lent.clone();
        walk_with(fault, sheet, seed, wish, &mut other) != answer || other != ours
    });
}

/// The library's walk, held against the laws of a walk.
fn hold(
    rng: &mut Rng,
    findings: &mut Findings,
    sheet: &Sheet,
    (seed, wish): (u32, u16),
    answer: Walked,
    list: &[u8],
) {
    let events = &list[..list.len().min(answer.length.into())];
    let kept = events.len() == usize::from(answer.length)
        && events.len() <= usize::from(wish)
        && is_trace(sheet, events)
        && ends_rightly(sheet, wish, events)
        && (0..3).all(|_| place_holds(rng, sheet, seed, events));
    findings.compared(kept, || {
        format!(
            "walk of {wish} from {seed} on {}: library {answer:?} {:?} breaks a law",
            shown_sheet(sheet),
            shown(events)
        )
    });
    let less = match rng.below(3) {
        0 => wish,
        1 => rng.below(usize::from(wish) + 1) as u16,
        _ => rng.below(events.len() + 1) as u16,
    };
    let class = match less {
        _ if less == wish => 0,
        _ if usize::from(less) < events.len() => 2,
        _ => 1,
    };
    findings.count(FRONT, class);
    let places = usize::from(less) + rng.pick(&[0, 1, 40]);
    let mut again: Vec<u8> = (0..places).map(|_| rng.byte()).collect();
    let other = edge::walk(sheet, seed, less, &mut again);
    let front = &events[..events.len().min(less.into())];
    let same = other.refusal == 0
        && usize::from(other.length) == front.len()
        && again[..front.len()] == *front;
    findings.compared(same, || {
        format!(
            "walk of {less} from {seed} on {}: library {other:?} {:?}, with the wish {wish} {:?}",
            shown_sheet(sheet),
            shown(&again),
            shown(events)
        )
    });
}

/// The front of a list.
fn shown(list: &[u8]) -> &[u8] {
    &list[..list.len().min(40)]
}

/// Whether a trace is as long as the wish, or leads to a node without initials.
fn ends_rightly(sheet: &Sheet, wish: u16, events: &[u8]) -> bool {
    let node = walk(sheet, events);
    let over = |node: u8| initials(sheet, node).is_empty();
    events.len() == usize::from(wish) || node.is_some_and(over)
}

/// Whether some place of a walk holds the event that the state of this place takes of the initials
/// of the node that the events before it lead to.
fn place_holds(rng: &mut Rng, sheet: &Sheet, seed: u32, events: &[u8]) -> bool {
    if events.is_empty() {
        return true;
    }
    let place = rng.below(events.len());
    event_after(sheet, seed, &events[..place]) == Some(events[place])
}

/// The classes of a walk.
fn count_walk(
    findings: &mut Findings,
    sheet: &Sheet,
    (seed, wish): (u32, u16),
    places: usize,
    events: &[u8],
) {
    findings.count(LENGTH, length_class(events.len()));
    let nodes = nodes_of(sheet, events);
    let counts: Vec<usize> = nodes.iter().map(|&v| initials(sheet, v).len()).collect();
    match usize::from(wish) - events.len() {
        0 => findings.count(WHOLE, u64::from(counts[events.len()] == 0)),
        left => {
            findings.count(EARLY, length_class(events.len()).min(4));
            findings.count(SHORT_OF, u64::from(left > 1));
        }
    }
    let class = match wish {
        0 | 1 => u64::from(wish),
        2..=255 => 2,
        256..=4_094 => 3,
        4_095 => 4,
        _ => 5,
    };
    findings.count(WISH, class);
    let class = match places - usize::from(wish) {
        0 => 0,
        1 => 1,
        _ if places <= MAX_WALK.into() => 2,
        _ if places < 1 << 16 => 3,
        _ => 4,
    };
    findings.count(LENT, class);
    count_seed(findings, seed);
    findings.count(START, counts[0] as u64);
    count_steps(findings, sheet, &nodes[..events.len()], &counts);
    findings.count(CODES, u64::from(!has_first_codes(sheet)));
    findings.count(EVENTS, u64::from(sheet.e));
    let class = match sheet.n {
        1 => 0,
        2..=15 => 1,
        16..=31 => 2,
        _ => 3,
    };
    findings.count(NODES, class);
}

/// The class of a walk's length.
fn length_class(length: usize) -> u64 {
    match length {
        0 => 0,
        1 => 1,
        2..=15 => 2,
        16..=255 => 3,
        256..=4_095 => 4,
        _ => 5,
    }
}

/// The nodes on a walk, the start and the end among them.
fn nodes_of(sheet: &Sheet, events: &[u8]) -> Vec<u8> {
    let mut nodes = vec![0];
    for &event in events {
        let row = sheet.row(nodes[nodes.len() - 1]);
        nodes.push(row.succ[usize::from(event)]);
    }
    nodes
}

/// Counts a seed.
fn count_seed(findings: &mut Findings, seed: u32) {
    let class = match seed {
        1 => 0,
        0..=0xFF => 1,
        0x100..=0xFFFF => 2,
        0x1_0000..=0x7FFF_FFFF => 3,
        0x8000_0000..=0xFFFF_FFFE => 4,
        u32::MAX => 5,
    };
    findings.count(SEED, class);
    findings.count(LOW, u64::from(seed as u16 != 0));
}

/// Counts what the nodes are at which events were taken.
fn count_steps(findings: &mut Findings, sheet: &Sheet, nodes: &[u8], counts: &[usize]) {
    if nodes.is_empty() {
        return;
    }
    let gap = |&node: &u8| {
        let initials = initials(sheet, node);
        initials
            .iter()
            .zip(0..)
            .any(|(&event, number)| event != number)
    };
    findings.count(GAPS, u64::from(nodes.iter().any(gap)));
    let stops = nodes.iter().any(|&node| sheet.row(node).may_stop());
    findings.count(STOPS, u64::from(stops));
    if nodes.len() > 1 {
        let same = counts[..nodes.len()].iter().all(|&m| m == counts[0]);
        findings.count(CHANGE, u64::from(!same));
        findings.count(AGAIN, u64::from(!nodes[1..].contains(&0)));
    }
}

/// Why there is 28: 1 for the list, 2 for the wish, their sum for both; 0 for none.
fn room_class(wish: u16, places: usize) -> u64 {
    u64::from(places < wish.into()) + 2 * u64::from(wish > MAX_WALK)
}

/// Counts a walk that is refused with 28.
fn count_room(findings: &mut Findings, sheet: &Sheet, (seed, wish): (u32, u16), places: usize) {
    let class = room_class(wish, places);
    findings.count(ROOM, class);
    let walk = walk_of(sheet, seed, wish).len();
    match class {
        1 => {
            let class = match usize::from(wish) - places {
                _ if places == 0 => 0,
                1 => 1,
                _ => 2,
            };
            findings.count(SHORT, class + 3 * u64::from(walk <= places));
        }
        2 => {
            let class = match wish {
                4_097 => 0,
                _ if wish % 8_192 <= MAX_WALK => 1,
                _ => 2,
            };
            findings.count(FAR, class + 3 * u64::from(walk < wish.into()));
        }
        _ => {}
    }
}

/// Counts a refused sheet by what else there is to refuse.
fn count_refused_sheet(
    findings: &mut Findings,
    sheet: &Sheet,
    (seed, wish): (u32, u16),
    places: usize,
) {
    let zero = 27 * u64::from(seed == 0);
    let room = 28 * u64::from(room_class(wish, places) > 0);
    let number = u64::from(check(sheet));
    findings.count(SHEET, 100 * number + zero + room);
}
