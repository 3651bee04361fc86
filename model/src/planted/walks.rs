//! The walk call with a fault planted or none. The state is kept in 64 bits, of which the high ones
//! are dropped after each shift.

use super::faults;
use crate::load::MAX_WALK;
use crate::numbers::Walked;
use crate::sheet::{check, Sheet, MAX_EVENTS, MAX_NODES, NO_NODE};

faults! {
    /// One planted fault of the walk call, or none.
    WalkFault {
        /// The first event is from the seed itself.
        SeedFirst,
        /// The first state after the seed is left out.
        FirstStateLeftOut,
        /// Each step takes the state after the next.
        EverySecondState,
        /// Each step takes the first state after the seed.
        FirstStateKept,
        /// The state begins anew from the seed at each node that is node 0.
        AnewAtStart,
        /// The first shift is by 12.
        ShiftTwelve,
        /// The first shift is by 14.
        ShiftFourteen,
        /// The second shift is by 16.
        ShiftSixteen,
        /// The second shift is by 18.
        ShiftEighteen,
        /// The third shift is by 4.
        ShiftFour,
        /// The third shift is by 6.
        ShiftSix,
        /// The first shift is left out.
        FirstShiftLeftOut,
        /// The second shift is left out.
        SecondShiftLeftOut,
        /// The third shift is left out.
        ThirdShiftLeftOut,
        /// The shifts come in the other order.
        ShiftsBackwards,
        /// The shifts are to the right, to the left and to the right.
        ShiftsTurned,
        /// Each shift is of the state before the step.
        ShiftsOfOldState,
        /// The bits that are shifted out come in at the other end.
        Rotated,
        /// The shift to the right keeps the highest bit.
        SignedShift,
        /// What is shifted is added.
        Added,
        /// What is shifted is combined by "or".
        OrTaken,
        /// High bits are not dropped: the state has 64 bits.
        WideState,
        /// High bits are dropped only at the end of a step.
        WideStep,
        /// The state has 16 bits.
        NarrowState,
        /// The bytes of the seed are turned round.
        SeedTurned,
        /// The initials descend.
        Descending,
        /// Initials are counted from 1.
        CountedFromOne,
        /// The remainder is by E.
        RemainderByEvents,
        /// The remainder is by m + 1.
        RemainderOneMore,
        /// The remainder is by m - 1.
        RemainderOneLess,
        /// The remainder is by the initials of node 0, and then by m.
        RemainderByStart,
        /// The remainder is of the low byte of the state.
        LowByteTaken,
        /// The remainder is of the low 16 bits of the state.
        LowWordTaken,
        /// The remainder is of the state as a number with a sign.
        SignedRemainder,
        /// The low bits of the state are taken for the remainder.
        LowBitsForRemainder,
        /// The high bits of the state are taken for the remainder.
        HighBitsForRemainder,
        /// The remainder of the quotient is taken.
        QuotientTaken,
        /// The first initial is always taken.
        FirstInitial,
        /// Events are counted over all E places, and drawn again where there is no successor.
        DrawnAgain,
        /// Events are counted over all E places, and the next initial from there on is taken.
        NextInitial,
        /// Events are counted over all E places, and the walk ends where there is no successor.
        EndsAtNoSuccessor,
        /// The last event of the sheet is no initial.
        LastEventLeftOut,
        /// Two events that lead to the same node count once.
        WaysMerged,
        /// An event that leads back to its node is no initial.
        LoopsLeftOut,
        /// Only events in some acceptance are initials.
        AcceptancesAsked,
        /// The walk ends where the node may stop.
        MayStopEnds,
        /// The walk starts at node 1 where there is one.
        StartsAtOne,
        /// The walk starts at the last node.
        StartsAtLast,
        /// Each step leads to the successor on the first initial.
        SuccessorOfFirst,
        /// Each step leads to the successor on the event with the number that was drawn.
        SuccessorOfNumber,
        /// Each step leads back to node 0.
        NodeStays,
        /// The number among the initials is written.
        NumberWritten,
        /// The node that is reached is written.
        NodeWritten,
        /// The low byte of the event's catalogue code is written.
        CodeWritten,
        /// Events are written from 1 on.
        EventsFromOne,
        /// A walk goes on at node 0 where there are no initials.
        EndGoesBack,
        /// Event 0 is written up to the wish where there are no initials.
        EndIsZero,
        /// An event that leads to a node without initials is not taken.
        EndLeftOut,
        /// The walk stops one event early.
        OneEarly,
        /// The walk has one event more where there is room.
        OneMore,
        /// The walk goes on to the end of the list, or to 4,096 events.
        WholeList,
        /// The length of the wish is answered.
        WishAnswered,
        /// The number of nodes on the walk is answered.
        NodesAnswered,
        /// The low byte of the length is answered.
        LengthLowByte,
        /// Nothing is written.
        NothingWritten,
        /// The walk is written one place late where there is room.
        WrittenLate,
        /// The walk is written at the end of the list.
        WrittenAtEnd,
        /// The walk is written from its last event to its first.
        WrittenBackwards,
        /// The rest is set to 0 up to the wish.
        RestClearedToWish,
        /// The rest of the list is set to 0.
        RestCleared,
        /// The place after the walk is set to 255.
        EndMarked,
        /// 27: seed 0 is accepted.
        ZeroAccepted,
        /// 27: seed 0 is taken as 1.
        ZeroIsOne,
        /// 27: seed 1 is refused.
        OneRefused,
        /// 27: a seed whose low 16 bits are 0 is refused.
        LowWordZeroRefused,
        /// 27: a seed with the highest bit is refused.
        HighBitRefused,
        /// 28 counts against the walk.
        WalkCounted,
        /// 28: a wish over 4,096 is accepted where the walk has no more.
        LongWishEnds,
        /// 28: a walk that ends early is refused.
        EarlyRefused,
        /// 28: an exact list is refused.
        ExactRefused,
        /// 28: a list one short is accepted.
        OneShortAccepted,
        /// 28: a short list is filled as far as it goes.
        ShortAccepted,
        /// 28: a wish of 4,097 is accepted.
        MostOneMore,
        /// 28: a wish of 4,096 is refused.
        MostRefused,
        /// 28: every wish is accepted.
        EveryWish,
        /// 28: a wish over 4,096 is taken as 4,096.
        WishCut,
        /// 28: only the low 12 bits of the wish are looked at.
        WishLowBits,
        /// 28: a wish of 0 is refused.
        NoWishRefused,
        /// 28: a list over 4,096 is refused.
        LongListRefused,
        /// 28: only the low byte of the list's length is looked at.
        ListLowByte,
        /// 28: only the low 16 bits of the list's length are looked at.
        ListLowWord,
        /// 28: a list must have room for 4,096 events.
        ListForMost,
        /// 27 is looked for before the sheet.
        TwentySevenBeforeSheet,
        /// 28 is looked for before the sheet.
        TwentyEightBeforeSheet,
        /// The sheet is checked last.
        SheetLast,
        /// 28 is looked for before 27.
        TwentyEightFirst,
        /// 27 and 28 have each other's number.
        NumbersExchanged,
        /// The sheet is not checked.
        SheetIgnored,
        /// Of the sheet only E and N are checked.
        SheetRangesOnly,
        /// The sheet is not checked where no event is wished.
        SheetIgnoredAtZero,
        /// A refusal has the wish beside it.
        WishWithRefusal,
        /// A refusal 28 has the walk's length beside it.
        LengthWithRefusal,
        /// A refusal 28 writes as far as there is room.
        RefusalWrites,
        /// A refusal sets the list to 0.
        RefusalClears,
    }
}

/// A call: the sheet, the seed and the wish.
#[derive(Clone, Copy)]
struct Call<'a> {
    sheet: &'a Sheet,
    seed: u32,
    wish: u16,
}

/// The walk call on a lent list, in numbers.
pub fn walk_with(fault: WalkFault, sheet: &Sheet, seed: u32, wish: u16, lent: &mut [u8]) -> Walked {
    let call = Call { sheet, seed, wish };
    let refusal = refused(fault, call, lent.len());
    if refusal != 0 {
        return Walked {
            refusal,
            length: beside(fault, call, refusal, lent),
        };
    }
    let most = most_of(fault, wish, lent.len());
    let events = events_with(fault, sheet, seed, most);
    write_with(fault, &events, wish, lent);
    let length = match fault {
        WalkFault::WishAnswered => most,
        WalkFault::NodesAnswered => events.len() + 1,
        WalkFault::LengthLowByte => events.len() % 256,
        _ => events.len(),
    };
    Walked {
        refusal: 0,
        length: length as u16,
    }
}

/// The refusal: the sheet's, 27, 28; or 0.
fn refused(fault: WalkFault, call: Call, places: usize) -> u8 {
    let own = match (fault, check(call.sheet)) {
        (WalkFault::SheetIgnored, _) => 0,
        (WalkFault::SheetIgnoredAtZero, _) if call.wish == 0 => 0,
        (WalkFault::SheetRangesOnly, number) if number != 3 => 0,
        (_, number) => number,
    };
    let test = |bad: bool, number: u8| if bad { number } else { 0 };
    let (first, second) = match fault {
        WalkFault::NumbersExchanged => (28, 27),
        _ => (27, 28),
    };
    let zero = test(seed_refused(fault, call.seed), first);
    let room = test(lacks_room(fault, call, places), second);
    let order = match fault {
        WalkFault::TwentySevenBeforeSheet => [zero, own, room],
        WalkFault::TwentyEightBeforeSheet => [room, own, zero],
        WalkFault::SheetLast => [zero, room, own],
        WalkFault::TwentyEightFirst => [own, room, zero],
        _ => [own, zero, room],
    };
    let found = order.into_iter().find(|&number| number != 0);
    found.unwrap_or(0)
}

/// 27: whether the seed is 0.
fn seed_refused(fault: WalkFault, seed: u32) -> bool {
    match fault {
        WalkFault::ZeroAccepted | WalkFault::ZeroIsOne => false,
        WalkFault::OneRefused => seed <= 1,
        WalkFault::LowWordZeroRefused => seed as u16 == 0,
        WalkFault::HighBitRefused => seed == 0 || seed >> 31 == 1,
        _ => seed == 0,
    }
}

/// 28: whether the list is shorter than the wish, or the wish is over 4,096.
fn lacks_room(fault: WalkFault, call: Call, places: usize) -> bool {
    let most = match fault {
        WalkFault::MostOneMore => MAX_WALK + 1,
        WalkFault::MostRefused => MAX_WALK - 1,
        WalkFault::EveryWish
        | WalkFault::WishCut
        | WalkFault::LongWishEnds
        | WalkFault::WishLowBits => u16::MAX,
        _ => MAX_WALK,
    };
    let wish = usize::from(call.wish);
    let walk = || events_with(fault, call.sheet, call.seed, wish).len();
    let short = match fault {
        WalkFault::WalkCounted => places < walk(),
        WalkFault::ExactRefused => places <= wish,
        WalkFault::OneShortAccepted => places + 1 < wish,
        WalkFault::ShortAccepted => false,
        WalkFault::WishCut => places < wish.min(MAX_WALK.into()),
        WalkFault::WishLowBits => places < wish % usize::from(MAX_WALK),
        WalkFault::LongListRefused => places < wish || places > MAX_WALK.into(),
        WalkFault::ListLowByte => places % (1 << 8) < wish,
        WalkFault::ListLowWord => places % (1 << 16) < wish,
        WalkFault::ListForMost => places < MAX_WALK.into(),
        _ => places < wish,
    };
    let other = match fault {
        WalkFault::LongWishEnds => walk() > MAX_WALK.into(),
        WalkFault::EarlyRefused => walk() < wish,
        WalkFault::NoWishRefused => wish == 0,
        _ => false,
    };
    call.wish > most || short || other
}

/// What a refusal answers for the length, and does to the list.
fn beside(fault: WalkFault, call: Call, refusal: u8, lent: &mut [u8]) -> u16 {
    if fault == WalkFault::RefusalClears {
        lent.fill(0);
    }
    let wish = call.wish.min(MAX_WALK);
    let events = match fault {
        WalkFault::LengthWithRefusal | WalkFault::RefusalWrites if refusal == 28 => {
            events_with(fault, call.sheet, call.seed, wish.into())
        }
        _ => Vec::new(),
    };
    match fault {
        WalkFault::WishWithRefusal => call.wish,
        WalkFault::LengthWithRefusal => events.len() as u16,
        WalkFault::RefusalWrites => {
            write(&events, lent);
            0
        }
        _ => 0,
    }
}

/// How many events a walk has at most.
fn most_of(fault: WalkFault, wish: u16, places: usize) -> usize {
    let wish = usize::from(wish);
    let most = usize::from(MAX_WALK);
    match fault {
        WalkFault::OneEarly => wish.saturating_sub(1),
        WalkFault::OneMore => (wish + 1).min(places),
        WalkFault::WholeList => places.min(most),
        WalkFault::ShortAccepted => wish.min(places),
        WalkFault::WishCut => wish.min(most),
        WalkFault::WishLowBits => wish % most,
        _ => wish,
    }
}

/// Writes a walk.
fn write_with(fault: WalkFault, events: &[u8], wish: u16, lent: &mut [u8]) {
    let spare = lent.len().saturating_sub(events.len());
    match fault {
        WalkFault::NothingWritten => {}
        WalkFault::WrittenLate if spare > 0 => write(events, &mut lent[1..]),
        WalkFault::WrittenAtEnd => write(events, &mut lent[spare..]),
        WalkFault::WrittenBackwards => {
            let turned: Vec<u8> = events.iter().rev().copied().collect();
            write(&turned, lent);
        }
        _ => write(events, lent),
    }
    let rest = lent.iter_mut().skip(events.len());
    let wished = usize::from(wish).saturating_sub(events.len());
    match fault {
        WalkFault::RestClearedToWish => rest.take(wished).for_each(|place| *place = 0),
        WalkFault::RestCleared => rest.for_each(|place| *place = 0),
        WalkFault::EndMarked => rest.take(1).for_each(|place| *place = 255),
        _ => {}
    }
}

fn write(events: &[u8], lent: &mut [u8]) {
    for (place, &event) in lent.iter_mut().zip(events) {
        *place = event;
    }
}

/// The events of a walk of at most `most`.
fn events_with(fault: WalkFault, sheet: &Sheet, seed: u32, most: usize) -> Vec<u8> {
    let seed = u64::from(match fault {
        WalkFault::ZeroIsOne => seed.max(1),
        WalkFault::SeedTurned => seed.swap_bytes(),
        WalkFault::NarrowState => seed % (1 << 16),
        _ => seed,
    });
    let mut state = match fault {
        WalkFault::FirstStateLeftOut => next_with(fault, seed),
        _ => seed,
    };
    let mut node = match fault {
        WalkFault::StartsAtOne if sheet.n > 1 => 1,
        WalkFault::StartsAtLast => sheet.n.saturating_sub(1),
        _ => 0,
    };
    let mut events = Vec::new();
    while events.len() < most {
        if fault == WalkFault::EndGoesBack && initials_with(fault, sheet, node).is_empty() {
            node = 0;
        }
        if fault == WalkFault::AnewAtStart && node == 0 {
            state = seed;
        }
        let old = state;
        state = next_with(fault, state);
        if fault == WalkFault::EverySecondState {
            state = next_with(fault, state);
        }
        if fault == WalkFault::DrawnAgain && !initials_with(fault, sheet, node).is_empty() {
            while after(sheet, node, place_of(sheet, state)).is_none() {
                state = next_with(fault, state);
            }
        }
        let drawn = match fault {
            WalkFault::SeedFirst => old,
            WalkFault::FirstStateKept => next_with(fault, seed),
            _ => state,
        };
        match step_with(fault, sheet, node, drawn) {
            Some((event, next)) => {
                events.push(event);
                node = next;
            }
            None => break,
        }
    }
    if fault == WalkFault::EndIsZero {
        events.resize(most, 0);
    }
    events
}

/// What a step writes, and where it leads to.
fn step_with(fault: WalkFault, sheet: &Sheet, node: u8, state: u64) -> Option<(u8, u8)> {
    let initials = initials_with(fault, sheet, node);
    let m = initials.len() as u64;
    if m == 0 || fault == WalkFault::MayStopEnds && may_stop(sheet, node) {
        return None;
    }
    let start = initials_with(fault, sheet, 0).len() as u64;
    let number = match fault {
        WalkFault::Descending => m - 1 - state % m,
        WalkFault::CountedFromOne => (state % m + 1) % m,
        WalkFault::RemainderByEvents => state % u64::from(sheet.e) % m,
        WalkFault::RemainderOneMore => (state % (m + 1)).min(m - 1),
        WalkFault::RemainderOneLess => state % (m - 1).max(1),
        WalkFault::RemainderByStart => state % start.max(1) % m,
        WalkFault::LowByteTaken => state % (1 << 8) % m,
        WalkFault::LowWordTaken => state % (1 << 16) % m,
        WalkFault::SignedRemainder => i64::from(state as i32).rem_euclid(m as i64) as u64,
        WalkFault::LowBitsForRemainder => state & (m - 1),
        WalkFault::HighBitsForRemainder => (state * m) >> 32,
        WalkFault::QuotientTaken => state / m % m,
        WalkFault::FirstInitial => 0,
        _ => state % m,
    };
    let place = place_of(sheet, state);
    let drawn = initials[number as usize];
    let event = match fault {
        WalkFault::DrawnAgain | WalkFault::EndsAtNoSuccessor => place,
        WalkFault::NextInitial => {
            let mut later = initials.iter().filter(|&&event| event >= place);
            *later.next().unwrap_or(&initials[0])
        }
        _ => drawn,
    };
    let next = match fault {
        WalkFault::SuccessorOfFirst => after(sheet, node, initials[0])?,
        WalkFault::SuccessorOfNumber => after(sheet, node, number as u8).unwrap_or(node),
        WalkFault::NodeStays => 0,
        _ => after(sheet, node, event)?,
    };
    if fault == WalkFault::EndLeftOut && initials_with(fault, sheet, next).is_empty() {
        return None;
    }
    let written = match fault {
        WalkFault::NumberWritten => number as u8,
        WalkFault::NodeWritten => next,
        WalkFault::CodeWritten => sheet.codes[usize::from(event)] as u8,
        WalkFault::EventsFromOne => event + 1,
        _ => event,
    };
    Some((written, next))
}

/// The event that a state draws of all E places.
fn place_of(sheet: &Sheet, state: u64) -> u8 {
    (state % u64::from(sheet.e.max(1))) as u8
}

/// The successor of a node on an event, on a sheet with any content.
fn after(sheet: &Sheet, node: u8, event: u8) -> Option<u8> {
    let row = sheet.rows.get(usize::from(node))?;
    let next = row.succ.get(usize::from(event))?;
    (event < sheet.e && *next != NO_NODE).then_some(*next)
}

/// Whether a node may stop, on a sheet with any content.
fn may_stop(sheet: &Sheet, node: u8) -> bool {
    sheet.rows[usize::from(node) % MAX_NODES].sets[0] == 0
}

/// The initials of a node, as they count.
fn initials_with(fault: WalkFault, sheet: &Sheet, node: u8) -> Vec<u8> {
    let events = match fault {
        WalkFault::LastEventLeftOut => sheet.e.saturating_sub(1),
        _ => sheet.e,
    };
    let mut found: Vec<u8> = Vec::new();
    for event in 0..events.min(MAX_EVENTS as u8) {
        let Some(next) = after(sheet, node, event) else {
            continue;
        };
        let row = &sheet.rows[usize::from(node)];
        let counts = match fault {
            WalkFault::WaysMerged => {
                let same = |&old: &u8| after(sheet, node, old) == Some(next);
                !found.iter().any(same)
            }
            WalkFault::LoopsLeftOut => next != node,
            WalkFault::AcceptancesAsked => row.sets.iter().any(|set| set >> event & 1 == 1),
            _ => true,
        };
        if counts {
            found.push(event);
        }
    }
    found
}

/// The state after a state.
fn next_with(fault: WalkFault, old: u64) -> u64 {
    let low = |state: u64| match fault {
        WalkFault::NarrowState => state % (1 << 16),
        _ => state % (1 << 32),
    };
    let mut state = old;
    for (left, by) in shifts(fault) {
        let from = match fault {
            WalkFault::ShiftsOfOldState => old,
            _ => state,
        };
        let word = from as u32;
        let moved = match (fault, left) {
            (WalkFault::Rotated, true) => word.rotate_left(by).into(),
            (WalkFault::Rotated, false) => word.rotate_right(by).into(),
            (WalkFault::SignedShift, false) => ((word as i32 >> by) as u32).into(),
            (WalkFault::WideState | WalkFault::WideStep, true) => from << by,
            (_, true) => low(from << by),
            (_, false) => from >> by,
        };
        state = match fault {
            WalkFault::Added => low(state + moved),
            WalkFault::OrTaken => state | moved,
            _ => state ^ moved,
        };
    }
    match fault {
        WalkFault::WideState => state,
        _ => low(state),
    }
}

/// The three shifts, each with whether it is to the left.
fn shifts(fault: WalkFault) -> Vec<(bool, u32)> {
    let (first, second, third) = ((true, 13), (false, 17), (true, 5));
    match fault {
        WalkFault::ShiftTwelve => vec![(true, 12), second, third],
        WalkFault::ShiftFourteen => vec![(true, 14), second, third],
        WalkFault::ShiftSixteen => vec![first, (false, 16), third],
        WalkFault::ShiftEighteen => vec![first, (false, 18), third],
        WalkFault::ShiftFour => vec![first, second, (true, 4)],
        WalkFault::ShiftSix => vec![first, second, (true, 6)],
        WalkFault::FirstShiftLeftOut => vec![second, third],
        WalkFault::SecondShiftLeftOut => vec![first, third],
        WalkFault::ThirdShiftLeftOut => vec![first, second],
        WalkFault::ShiftsBackwards => vec![third, second, first],
        WalkFault::ShiftsTurned => vec![(false, 13), (true, 17), (false, 5)],
        _ => vec![first, second, third],
    }
}
