//! The call that writes the two sheets of the bound with a fault planted or none. The bytes are
//! made node by node, for any number of nodes.

use super::faults;
use crate::numbers::Bounded;
use crate::sheet::NO_NODE;

faults! {
    /// One planted fault of the call, or none.
    BoundFault {
        /// 30: 0 is accepted.
        ZeroAccepted,
        /// 30: 0 counts as 1.
        ZeroIsOne,
        /// 30: 1 is refused.
        OneRefused,
        /// 30: 32 is refused.
        ThirtyTwoRefused,
        /// 30: 33 is accepted.
        ThirtyThreeAccepted,
        /// 30 is only for 0.
        ZeroAlone,
        /// 30: every number is accepted.
        EveryCount,
        /// 30: a number above 32 counts as 32.
        CountsCapped,
        /// 30: after 32 the numbers begin anew with 1.
        CountsWrap,
        /// 30: only the low six bits of a number are looked at.
        CountsSixBits,
        /// 30: only the low seven bits of a number are looked at.
        CountsSevenBits,
        /// 30: numbers from 128 on count as below 0, and are accepted as 1.
        CountsSigned,
        /// 30 looks at p alone.
        FirstCountOnly,
        /// 30 looks at q alone.
        SecondCountOnly,
        /// 30 is only for two numbers out of range.
        BothCountsAsked,
        /// 30 looks at the product.
        ProductAsked,
        /// 30 is for p above q too.
        DescendingRefused,
        /// 30 is for p below q too.
        AscendingRefused,
        /// 31 is looked for before 30.
        ThirtyOneFirst,
        /// 30 and 31 have each other's number.
        NumbersExchanged,
        /// 31 is told as 30.
        ThirtyAlways,
        /// 30 is told as 31.
        ThirtyOneAlways,
        /// 31 looks at the reference's list alone.
        FirstListOnly,
        /// 31 looks at the device's list alone.
        SecondListOnly,
        /// 31 is only for two lists that are too short.
        BothListsAsked,
        /// 31 looks at the two lists together.
        ListsTogether,
        /// 31: each list is held against the other sheet.
        ListsAcross,
        /// 31: an exact list is refused.
        ExactRefused,
        /// 31: an exact list of the reference is refused.
        ExactFirstRefused,
        /// 31: an exact list of the device is refused.
        ExactSecondRefused,
        /// 31: a list one short is accepted.
        OneShortAccepted,
        /// 31: a list of the reference one short is accepted.
        OneShortFirst,
        /// 31: a list of the device one short is accepted.
        OneShortSecond,
        /// 31: short lists are filled as far as they go.
        ShortAccepted,
        /// 31: an empty list is accepted.
        EmptyAccepted,
        /// 31: a list one longer than its sheet is refused.
        OneMoreRefused,
        /// 31: every longer list is refused.
        LongerRefused,
        /// 31: only the low byte of a list's length is looked at.
        ListLowByte,
        /// 31: only the low 16 bits of a list's length are looked at.
        ListLowWord,
        /// 31: a list must have room for the sheet of 32 nodes.
        RoomForMost,
        /// 31: the reference's list must have room for seven bytes for each node and seven more.
        RoomLikeNodes,
        /// 31: the device's list must have room for a reference of q nodes.
        RoomLikeReference,
        /// 31: the four bytes of the length field are not counted.
        FieldNotCounted,
        /// A reference that has room is written although the device's list is too short.
        FirstWrittenAnyway,
        /// A device that has room is written although the reference's list is too short.
        SecondWrittenAnyway,
        /// A refusal 31 fills both lists as far as they go.
        RefusalFills,
        /// A refusal sets both lists to 0.
        RefusalClears,
        /// A refusal 31 has the lengths beside it.
        LengthsWithRefusal,
        /// A refusal 31 by the device's list has the reference's length beside it.
        FirstLengthWithRefusal,
        /// A refusal has p and q beside it.
        CountsWithRefusal,
        /// The lengths are exchanged.
        LengthsExchanged,
        /// The numbers in the length fields are answered.
        LengthsWithoutFour,
        /// The numbers of nodes are answered.
        NodesAnswered,
        /// The lengths of the lists are answered.
        PlacesAnswered,
        /// Both answers are the sum of the lengths.
        SumsAnswered,
        /// The device's length is answered as if it were a reference.
        DeviceLengthLikeReference,
        /// Nothing is written.
        NothingWritten,
        /// The reference is not written.
        FirstNotWritten,
        /// The device is not written.
        SecondNotWritten,
        /// The length fields are not written.
        FieldsNotWritten,
        /// The last byte of each sheet is not written.
        LastByteLeft,
        /// Bytes that are 0 are not written.
        ZerosLeft,
        /// A sheet is written one place late where there is room.
        WrittenLate,
        /// A sheet is written at the end of its list.
        WrittenAtEnd,
        /// The rest of both lists is set to 0.
        RestCleared,
        /// The rest of the reference's list is set to 0.
        FirstRestCleared,
        /// The rest of the device's list is set to 0.
        SecondRestCleared,
        /// The place after each sheet is set to 0.
        EndMarked,
        /// Numbers of nodes are exchanged: the reference has q nodes, the device p.
        CountsExchanged,
        /// The kinds are exchanged: the reference's list gets a device of p nodes.
        KindsExchanged,
        /// The sheets are exchanged: the reference's list gets the device of q nodes.
        SheetsExchanged,
        /// Both sheets are references.
        TwoReferences,
        /// Both sheets are devices.
        TwoDevices,
        /// The reference has one node less where it has more than one.
        ReferenceOneLess,
        /// The reference has one node more.
        ReferenceOneMore,
        /// The device has one node less where it has more than one.
        DeviceOneLess,
        /// The device has one node more.
        DeviceOneMore,
        /// The length field is one more.
        FieldOneMore,
        /// The length field is one less.
        FieldOneLess,
        /// The length field counts itself.
        FieldCountsItself,
        /// The length field has its low byte first.
        FieldLowByteFirst,
        /// The version is 2, without codes.
        VersionTwo,
        /// The version is 2, with the codes of version 1.
        VersionTwoCoded,
        /// The version is 0.
        VersionZero,
        /// E is 1.
        EventsOne,
        /// E is 3, each third event without a successor.
        EventsThree,
        /// E and N are exchanged.
        HeadExchanged,
        /// N is one more.
        HeadNodeMore,
        /// N is one less.
        HeadNodeLess,
        /// C of each node is one more.
        CountsOneMore,
        /// C of each node is left out.
        CountsLeftOut,
        /// C stands after the sets.
        CountsLast,
        /// A set has its low byte first.
        SetsLowByteFirst,
        /// A set has one byte.
        SetsOneByte,
        /// No successor is written as 0.
        NoneIsZero,
        /// No successor is written as N.
        NoneIsNodes,
        /// No successor is written as the node itself.
        NoneIsItself,
        /// Nodes are counted from 1.
        NodesFromOne,
        /// The numbers of nodes have four bits.
        NodesFourBits,
        /// The two successors of each node are exchanged.
        SuccessorsExchanged,
        /// The two events are exchanged, in the sets too.
        EventsExchanged,
        /// The nodes are written from the last to the first.
        NodesBackwards,
        /// The reference climbs on 0 and stays on 1.
        ReferenceClimbsOnZero,
        /// The reference climbs on both events.
        ReferenceClimbsOnBoth,
        /// The reference goes back to its first node on 0.
        ReferenceBackOnZero,
        /// The reference does only event 1 to climb.
        ReferenceOnlyClimbs,
        /// The first node of the reference climbs on 0 where it is not its last.
        ReferenceFirstClimbsOnZero,
        /// The reference insists on both: the one set 3.
        ReferenceInsistsOnBoth,
        /// The reference insists on 0.
        ReferenceInsistsOnZero,
        /// The reference insists on 1.
        ReferenceInsistsOnOne,
        /// The reference's sets descend.
        ReferenceSetsDescend,
        /// The reference has the set 3 too.
        ReferenceThreeSets,
        /// The reference may stop before its last node.
        ReferenceMayStop,
        /// The reference's last node knows event 1 too, staying.
        ReferenceLastStaysOnBoth,
        /// The reference's last node knows event 1 too, back to its first.
        ReferenceLastGoesBack,
        /// The reference's last node climbs on.
        ReferenceLastClimbs,
        /// The reference's last node goes back to its first on 0.
        ReferenceLastReturns,
        /// The reference's last node knows only 1.
        ReferenceLastOnOne,
        /// The reference's last node has no events.
        ReferenceLastEnds,
        /// The reference's last node may stop.
        ReferenceLastMayStop,
        /// The reference's last node has the set 2.
        ReferenceLastSetTwo,
        /// The reference's last node has the set 3.
        ReferenceLastSetThree,
        /// The reference's last node has the sets 1 and 2.
        ReferenceLastTwoSets,
        /// A reference of one node knows event 1 too.
        ReferenceOfOne,
        /// A reference of 32 nodes knows event 1 at its last node too.
        ReferenceOfMost,
        /// The device climbs on 1.
        DeviceClimbsOnOne,
        /// The device climbs on both events.
        DeviceClimbsOnBoth,
        /// The device stays on 1 before its last node.
        DeviceStaysOnOne,
        /// The device goes back to its first node on 1 at each node.
        DeviceBackOnOne,
        /// The device may stop before its last node.
        DeviceMayStop,
        /// The device has the set 2 before its last node.
        DeviceSetTwo,
        /// The device has the set 3 before its last node.
        DeviceSetThree,
        /// The device's last node stays on 1.
        DeviceLastStays,
        /// The device's last node goes back to its second on 1.
        DeviceLastToSecond,
        /// The device's last node goes back on 0.
        DeviceLastOnZero,
        /// The device's last node goes back on both events.
        DeviceLastOnBoth,
        /// The device's last node has no events.
        DeviceLastEnds,
        /// The device's last node may stop.
        DeviceLastMayStop,
        /// The device's last node has the set 1.
        DeviceLastSetOne,
        /// The device's last node has the set 3.
        DeviceLastSetThree,
        /// The device's last node has the sets 1 and 2.
        DeviceLastTwoSets,
        /// A device of one node does event 0.
        DeviceOfOne,
        /// A device of 32 nodes does both events at its last node.
        DeviceOfMost,
    }
}

/// The successors on the two events and the sets of a node.
type Node = ([u8; 2], Vec<u16>);

/// The call on two lent lists, in numbers.
pub fn bound_with(
    fault: BoundFault,
    p: u8,
    q: u8,
    reference: &mut [u8],
    device: &mut [u8],
) -> Bounded {
    let lent = (reference.len(), device.len());
    let counts = (counted(fault, p), counted(fault, q));
    let sheets = sheets_with(fault, counts.0, counts.1);
    let refusal = refused(fault, counts, &sheets, lent);
    let (first, second) = match refusal {
        0 => {
            write_with(fault, &sheets, reference, device);
            answer_with(fault, counts, &sheets, lent)
        }
        _ => beside(fault, (p, q), &sheets, (reference, device)),
    };
    Bounded {
        refusal: number_with(fault, refusal),
        reference: first as u16,
        device: second as u16,
    }
}

/// What a number of nodes counts as.
fn counted(fault: BoundFault, count: u8) -> u8 {
    match fault {
        BoundFault::ZeroIsOne => count.max(1),
        BoundFault::CountsCapped => count.min(32),
        BoundFault::CountsWrap if count > 0 => (count - 1) % 32 + 1,
        BoundFault::CountsSixBits => count % 64,
        BoundFault::CountsSevenBits => count % 128,
        BoundFault::CountsSigned if count >= 128 => 1,
        _ => count,
    }
}

/// The refusal: 30, 31; or 0.
fn refused(
    fault: BoundFault,
    (p, q): (u8, u8),
    sheets: &(Vec<u8>, Vec<u8>),
    lent: (usize, usize),
) -> u8 {
    let thirty = out_of_range(fault, p, q);
    let short = lacks_room(fault, (p, q), sheets, lent);
    match (thirty, short) {
        (true, true) if fault == BoundFault::ThirtyOneFirst => 31,
        (true, _) => 30,
        (_, true) => 31,
        _ => 0,
    }
}

/// The number under which a refusal is told.
fn number_with(fault: BoundFault, refusal: u8) -> u8 {
    match (fault, refusal) {
        (_, 0) => 0,
        (BoundFault::NumbersExchanged, _) => 30 + 31 - refusal,
        (BoundFault::ThirtyAlways, _) => 30,
        (BoundFault::ThirtyOneAlways, _) => 31,
        _ => refusal,
    }
}

/// 30: whether p or q is out of range.
fn out_of_range(fault: BoundFault, p: u8, q: u8) -> bool {
    let range = match fault {
        BoundFault::ZeroAccepted => 0..=32,
        BoundFault::OneRefused => 2..=32,
        BoundFault::ThirtyTwoRefused => 1..=31,
        BoundFault::ThirtyThreeAccepted => 1..=33,
        BoundFault::ZeroAlone => 1..=255,
        BoundFault::EveryCount => 0..=255,
        _ => 1..=32,
    };
    let (first, second) = (!range.contains(&p), !range.contains(&q));
    match fault {
        BoundFault::FirstCountOnly => first,
        BoundFault::SecondCountOnly => second,
        BoundFault::BothCountsAsked => first && second,
        BoundFault::ProductAsked => !(1..=1_024).contains(&(u16::from(p) * u16::from(q))),
        BoundFault::DescendingRefused => first || second || p > q,
        BoundFault::AscendingRefused => first || second || p < q,
        _ => first || second,
    }
}

/// 31: whether a list is too short for its sheet.
fn lacks_room(
    fault: BoundFault,
    (p, q): (u8, u8),
    sheets: &(Vec<u8>, Vec<u8>),
    lent: (usize, usize),
) -> bool {
    let (first, second) = (sheets.0.len(), sheets.1.len());
    let needed = match fault {
        BoundFault::ListsAcross => (second, first),
        BoundFault::ExactFirstRefused => (first + 1, second),
        BoundFault::ExactSecondRefused => (first, second + 1),
        BoundFault::ExactRefused => (first + 1, second + 1),
        BoundFault::OneShortFirst => (first - 1, second),
        BoundFault::OneShortSecond => (first, second - 1),
        BoundFault::OneShortAccepted => (first - 1, second - 1),
        BoundFault::RoomForMost => (first.max(229), second.max(167)),
        BoundFault::RoomLikeNodes => (7 * usize::from(p) + 7, second),
        BoundFault::RoomLikeReference => (first, second.max(7 * usize::from(q) + 5)),
        BoundFault::FieldNotCounted => (first - 4, second - 4),
        _ => (first, second),
    };
    let short = |places: usize, needed: usize| match fault {
        BoundFault::ShortAccepted => false,
        BoundFault::EmptyAccepted => places > 0 && places < needed,
        BoundFault::OneMoreRefused => places < needed || places == needed + 1,
        BoundFault::LongerRefused => places != needed,
        BoundFault::ListLowByte => places % (1 << 8) < needed,
        BoundFault::ListLowWord => places % (1 << 16) < needed,
        _ => places < needed,
    };
    let (one, other) = (short(lent.0, needed.0), short(lent.1, needed.1));
    match fault {
        BoundFault::FirstListOnly => one,
        BoundFault::SecondListOnly => other,
        BoundFault::BothListsAsked => one && other,
        BoundFault::ListsTogether => lent.0 + lent.1 < first + second,
        _ => one || other,
    }
}

/// What a refusal answers for the lengths, and does to the lists.
fn beside(
    fault: BoundFault,
    (p, q): (u8, u8),
    (mine, theirs): &(Vec<u8>, Vec<u8>),
    (reference, device): (&mut [u8], &mut [u8]),
) -> (usize, usize) {
    let asked = !out_of_range(fault, p, q);
    let fits = (reference.len() >= mine.len(), device.len() >= theirs.len());
    match fault {
        BoundFault::FirstWrittenAnyway if asked && fits.0 => write(mine, reference),
        BoundFault::SecondWrittenAnyway if asked && fits.1 => write(theirs, device),
        BoundFault::RefusalFills if asked => {
            write(mine, reference);
            write(theirs, device);
        }
        BoundFault::RefusalClears => {
            reference.fill(0);
            device.fill(0);
        }
        _ => {}
    }
    match fault {
        BoundFault::LengthsWithRefusal if asked => (mine.len(), theirs.len()),
        BoundFault::FirstLengthWithRefusal if asked && fits.0 => (mine.len(), 0),
        BoundFault::CountsWithRefusal => (p.into(), q.into()),
        _ => (0, 0),
    }
}

/// The lengths that are answered.
fn answer_with(
    fault: BoundFault,
    (p, q): (u8, u8),
    (mine, theirs): &(Vec<u8>, Vec<u8>),
    lent: (usize, usize),
) -> (usize, usize) {
    let (first, second) = (mine.len(), theirs.len());
    match fault {
        BoundFault::LengthsExchanged => (second, first),
        BoundFault::LengthsWithoutFour => (first - 4, second - 4),
        BoundFault::NodesAnswered => (p.into(), q.into()),
        BoundFault::PlacesAnswered => lent,
        BoundFault::SumsAnswered => (first + second, first + second),
        BoundFault::DeviceLengthLikeReference => (first, 7 * usize::from(q) + 5),
        _ => (first, second),
    }
}

/// Writes both sheets.
fn write_with(
    fault: BoundFault,
    (mine, theirs): &(Vec<u8>, Vec<u8>),
    reference: &mut [u8],
    device: &mut [u8],
) {
    if fault != BoundFault::FirstNotWritten {
        put(fault, mine, reference);
    }
    if fault != BoundFault::SecondNotWritten {
        put(fault, theirs, device);
    }
    let clear = |lent: &mut [u8], from: usize, places: usize| {
        let rest = lent.iter_mut().skip(from);
        rest.take(places).for_each(|place| *place = 0);
    };
    let (first, second) = match fault {
        BoundFault::RestCleared => (usize::MAX, usize::MAX),
        BoundFault::FirstRestCleared => (usize::MAX, 0),
        BoundFault::SecondRestCleared => (0, usize::MAX),
        BoundFault::EndMarked => (1, 1),
        _ => (0, 0),
    };
    clear(reference, mine.len(), first);
    clear(device, theirs.len(), second);
}

/// Writes one sheet.
fn put(fault: BoundFault, sheet: &[u8], lent: &mut [u8]) {
    let spare = lent.len().saturating_sub(sheet.len());
    match fault {
        BoundFault::NothingWritten => {}
        BoundFault::FieldsNotWritten => write(&sheet[4..], &mut lent[4..]),
        BoundFault::LastByteLeft => write(&sheet[..sheet.len() - 1], lent),
        BoundFault::ZerosLeft => {
            let some = lent.iter_mut().zip(sheet).filter(|(_, &byte)| byte != 0);
            some.for_each(|(place, &byte)| *place = byte);
        }
        BoundFault::WrittenLate if spare > 0 => write(sheet, &mut lent[1..]),
        BoundFault::WrittenAtEnd => write(sheet, &mut lent[spare..]),
        _ => write(sheet, lent),
    }
}

fn write(sheet: &[u8], lent: &mut [u8]) {
    for (place, &byte) in lent.iter_mut().zip(sheet) {
        *place = byte;
    }
}

/// The bytes of both sheets, the reference's first.
pub fn sheets_with(fault: BoundFault, p: u8, q: u8) -> (Vec<u8>, Vec<u8>) {
    let (mine, theirs) = match fault {
        BoundFault::CountsExchanged => (references(fault, q), devices(fault, p)),
        BoundFault::KindsExchanged => (devices(fault, p), references(fault, q)),
        BoundFault::SheetsExchanged => (devices(fault, q), references(fault, p)),
        BoundFault::TwoReferences => (references(fault, p), references(fault, q)),
        BoundFault::TwoDevices => (devices(fault, p), devices(fault, q)),
        BoundFault::ReferenceOneLess if p > 1 => (references(fault, p - 1), devices(fault, q)),
        BoundFault::ReferenceOneMore if p < 255 => (references(fault, p + 1), devices(fault, q)),
        BoundFault::DeviceOneLess if q > 1 => (references(fault, p), devices(fault, q - 1)),
        BoundFault::DeviceOneMore if q < 255 => (references(fault, p), devices(fault, q + 1)),
        _ => (references(fault, p), devices(fault, q)),
    };
    (bytes_with(fault, &mine), bytes_with(fault, &theirs))
}

/// The nodes of a reference.
fn references(fault: BoundFault, p: u8) -> Vec<Node> {
    let node = |v: u8| match v + 1 == p {
        true => last_reference(fault, p),
        false => reference(fault, v),
    };
    (0..p).map(node).collect()
}

/// A node of the reference before its last.
fn reference(fault: BoundFault, v: u8) -> Node {
    let next = v + 1;
    let succ = match fault {
        BoundFault::ReferenceClimbsOnZero => [next, v],
        BoundFault::ReferenceFirstClimbsOnZero if v == 0 => [next, v],
        BoundFault::ReferenceClimbsOnBoth => [next, next],
        BoundFault::ReferenceBackOnZero => [0, next],
        BoundFault::ReferenceOnlyClimbs => [NO_NODE, next],
        _ => [v, next],
    };
    let sets = match fault {
        BoundFault::ReferenceInsistsOnBoth => vec![3],
        BoundFault::ReferenceInsistsOnZero => vec![1],
        BoundFault::ReferenceInsistsOnOne | BoundFault::ReferenceOnlyClimbs => vec![2],
        BoundFault::ReferenceSetsDescend => vec![2, 1],
        BoundFault::ReferenceThreeSets => vec![1, 2, 3],
        BoundFault::ReferenceMayStop => vec![0],
        _ => vec![1, 2],
    };
    (succ, sets)
}

/// The last node of the reference.
fn last_reference(fault: BoundFault, p: u8) -> Node {
    let v = p - 1;
    let alone = [v, NO_NODE];
    match fault {
        BoundFault::ReferenceLastStaysOnBoth => ([v, v], vec![1, 2]),
        BoundFault::ReferenceOfOne if p == 1 => ([v, v], vec![1, 2]),
        BoundFault::ReferenceOfMost if p == 32 => ([v, v], vec![1, 2]),
        BoundFault::ReferenceLastGoesBack => ([v, 0], vec![1, 2]),
        BoundFault::ReferenceLastClimbs => ([v, p], vec![1, 2]),
        BoundFault::ReferenceLastReturns => ([0, NO_NODE], vec![1]),
        BoundFault::ReferenceLastOnOne => ([NO_NODE, v], vec![2]),
        BoundFault::ReferenceLastEnds => ([NO_NODE; 2], vec![0]),
        BoundFault::ReferenceLastMayStop => (alone, vec![0]),
        BoundFault::ReferenceLastSetTwo => (alone, vec![2]),
        BoundFault::ReferenceLastSetThree => (alone, vec![3]),
        BoundFault::ReferenceLastTwoSets => (alone, vec![1, 2]),
        _ => (alone, vec![1]),
    }
}

/// The nodes of a device.
fn devices(fault: BoundFault, q: u8) -> Vec<Node> {
    let node = |w: u8| match w + 1 == q {
        true => last_device(fault, q),
        false => device(fault, w),
    };
    (0..q).map(node).collect()
}

/// A node of the device before its last.
fn device(fault: BoundFault, w: u8) -> Node {
    let next = w + 1;
    let alone = [next, NO_NODE];
    match fault {
        BoundFault::DeviceClimbsOnOne => ([NO_NODE, next], vec![2]),
        BoundFault::DeviceClimbsOnBoth => ([next, next], vec![3]),
        BoundFault::DeviceStaysOnOne => ([next, w], vec![3]),
        BoundFault::DeviceBackOnOne => ([next, 0], vec![3]),
        BoundFault::DeviceMayStop => (alone, vec![0]),
        BoundFault::DeviceSetTwo => (alone, vec![2]),
        BoundFault::DeviceSetThree => (alone, vec![3]),
        _ => (alone, vec![1]),
    }
}

/// The last node of the device.
fn last_device(fault: BoundFault, q: u8) -> Node {
    let alone = [NO_NODE, 0];
    match fault {
        BoundFault::DeviceLastStays => ([NO_NODE, q - 1], vec![2]),
        BoundFault::DeviceLastToSecond if q > 1 => ([NO_NODE, 1], vec![2]),
        BoundFault::DeviceLastOnZero => ([0, NO_NODE], vec![1]),
        BoundFault::DeviceOfOne if q == 1 => ([0, NO_NODE], vec![1]),
        BoundFault::DeviceLastOnBoth => ([0, 0], vec![3]),
        BoundFault::DeviceOfMost if q == 32 => ([0, 0], vec![3]),
        BoundFault::DeviceLastEnds => ([NO_NODE; 2], vec![0]),
        BoundFault::DeviceLastMayStop => (alone, vec![0]),
        BoundFault::DeviceLastSetOne => (alone, vec![1]),
        BoundFault::DeviceLastSetThree => (alone, vec![3]),
        BoundFault::DeviceLastTwoSets => (alone, vec![1, 2]),
        _ => (alone, vec![2]),
    }
}

/// The bytes of some nodes.
fn bytes_with(fault: BoundFault, nodes: &[Node]) -> Vec<u8> {
    let mut body = head_with(fault, nodes.len() as u8);
    let numbered = 0..nodes.len();
    let parts = numbered.map(|v| node_with(fault, v as u8, nodes.len() as u8, &nodes[v]));
    let mut parts: Vec<Vec<u8>> = parts.collect();
    if fault == BoundFault::NodesBackwards {
        parts.reverse();
    }
    body.extend(parts.concat());
    let follow = body.len() as u32;
    let field = match fault {
        BoundFault::FieldOneMore => follow + 1,
        BoundFault::FieldOneLess => follow - 1,
        BoundFault::FieldCountsItself => follow + 4,
        BoundFault::FieldLowByteFirst => follow.swap_bytes(),
        _ => follow,
    };
    [&field.to_be_bytes()[..], &body].concat()
}

/// The bytes after the length field and before the nodes.
fn head_with(fault: BoundFault, n: u8) -> Vec<u8> {
    match fault {
        BoundFault::VersionTwo => vec![2, 2, n],
        BoundFault::VersionTwoCoded => vec![2, 2, n, 0, 1, 0, 2],
        BoundFault::VersionZero => vec![0, 2, n],
        BoundFault::EventsOne => vec![1, 1, n],
        BoundFault::EventsThree => vec![1, 3, n],
        BoundFault::HeadExchanged => vec![1, n, 2],
        BoundFault::HeadNodeMore => vec![1, 2, n.wrapping_add(1)],
        BoundFault::HeadNodeLess => vec![1, 2, n.wrapping_sub(1)],
        _ => vec![1, 2, n],
    }
}

/// The bytes of node `v` of `n`.
fn node_with(fault: BoundFault, v: u8, n: u8, (succ, sets): &Node) -> Vec<u8> {
    let mut bytes = succ.map(|next| successor_with(fault, v, n, next)).to_vec();
    match fault {
        BoundFault::SuccessorsExchanged | BoundFault::EventsExchanged => bytes.reverse(),
        BoundFault::EventsThree => bytes.push(NO_NODE),
        _ => {}
    }
    let count = match fault {
        BoundFault::CountsOneMore => sets.len() + 1,
        _ => sets.len(),
    };
    let sets = sets_with(fault, sets);
    match fault {
        BoundFault::CountsLeftOut => bytes.extend(sets),
        BoundFault::CountsLast => {
            bytes.extend(sets);
            bytes.push(count as u8);
        }
        _ => {
            bytes.push(count as u8);
            bytes.extend(sets);
        }
    }
    bytes
}

/// A successor of node `v` of `n` as it is written.
fn successor_with(fault: BoundFault, v: u8, n: u8, next: u8) -> u8 {
    match (fault, next) {
        (BoundFault::NoneIsZero, NO_NODE) => 0,
        (BoundFault::NoneIsNodes, NO_NODE) => n,
        (BoundFault::NoneIsItself, NO_NODE) => v,
        (_, NO_NODE) => NO_NODE,
        (BoundFault::NodesFromOne, _) => next + 1,
        (BoundFault::NodesFourBits, _) => next % 16,
        _ => next,
    }
}

/// The bytes of the sets of a node.
fn sets_with(fault: BoundFault, sets: &[u16]) -> Vec<u8> {
    let turned = |set: u16| (set & 1) << 1 | set >> 1;
    let mut sets = sets.to_vec();
    if fault == BoundFault::EventsExchanged {
        sets = sets.into_iter().map(turned).collect();
        sets.sort_unstable();
    }
    let bytes = |set: u16| match fault {
        BoundFault::SetsLowByteFirst => set.to_le_bytes().to_vec(),
        BoundFault::SetsOneByte => vec![set as u8],
        _ => set.to_be_bytes().to_vec(),
    };
    sets.into_iter().flat_map(bytes).collect()
}
