//! The faults that can be planted in reading and checking. With `Fault::None` these
//! two are the plain model.

use crate::rules::{check_kept, keep, read_nodes};
use crate::sheet::Sheet;

/// One planted fault, or none.
#[derive(Clone, Copy, PartialEq, Eq, Debug)]
pub enum Fault {
    None,
    /// 1: the length field is compared without adding 4.
    LengthWithoutFour,
    /// 1: only the last two bytes of the length field are looked at.
    LengthTwoBytes,
    /// 2 is looked at before 1.
    VersionBeforeLength,
    /// 2: any version is accepted.
    VersionIgnored,
    /// 2: version 2 is refused.
    VersionTwoRefused,
    /// 2: version 3 is read as version 2.
    VersionThreeAccepted,
    /// 3 is looked at before 2.
    RangesBeforeVersion,
    /// 3: E 0 is accepted.
    EventsZero,
    /// 3: N 33 is accepted.
    NodesThirtyThree,
    /// 3: E 13 is accepted.
    EventsThirteen,
    /// The codes are looked at before 3.
    CodesBeforeRanges,
    /// 18 is looked for before the codes are known to be complete.
    TwiceBeforeCut,
    /// 18 is looked for after the walk over the nodes, in a kept sheet after 5.
    TwiceAfterNodes,
    /// 18: a code given twice is accepted.
    TwiceIgnored,
    /// 18 is looked for over all twelve places.
    TwiceInAllPlaces,
    /// 18 is looked for between neighbours only.
    TwiceNeighbours,
    /// 18: the code of the last event is not looked at.
    TwiceWithoutLast,
    /// 18: only the low bytes of the codes are looked at.
    TwiceLowByte,
    /// 18: a code 0 is refused.
    CodeZeroRefused,
    /// The nodes begin at byte 7 in version 2 too.
    NodesAtSeven,
    /// 4: bytes after the last node are accepted.
    RestIgnored,
    /// 4 before 5: the whole node must fit before its C is judged.
    FitBeforeCount,
    /// 4 and 5 have each other's number.
    FourFiveSwapped,
    /// 5: C 17 is accepted.
    CountSeventeen,
    /// 5: C 0 is accepted.
    CountZero,
    /// 6 is looked at before 5 in a kept sheet.
    SuccessorsBeforeCounts,
    /// 6: a successor equal to N is accepted.
    SuccessorEqualsNodes,
    /// The set rules of 7 are looked at before 6.
    SetsBeforeSuccessors,
    /// 7: sets in any order are accepted.
    OrderIgnored,
    /// 7: equal neighbours are accepted.
    OrderNotStrict,
    /// 7: a set outside the initials is accepted.
    OutsideInitials,
    /// 7: inclusion is looked for between neighbours only.
    InclusionNeighbours,
    /// 7: the empty set may stand with others.
    EmptyNotAlone,
    /// 8: nodes that are not reached are accepted.
    ReachIgnored,
    /// 8: the search for reached nodes leaves out its last round.
    ReachRoundShort,
    /// 8: the search for reached nodes leaves out the last event.
    ReachEventShort,
    /// 8 is looked at before 7.
    ReachBeforeSets,
    /// 7, kept: a wrong unused successor is accepted.
    UnusedSuccessorIgnored,
    /// 7, kept: a wrong unused set is accepted.
    UnusedSetIgnored,
    /// 7, kept: a wrong C of an unused node is accepted.
    UnusedCountIgnored,
    /// 7, kept: a wrong unused code is accepted.
    UnusedCodeIgnored,
    /// Kept: a wrong unused code counts as 18.
    UnusedCodeEighteen,
    /// Kept: a wrong unused successor counts as 6.
    UnusedSuccessorSix,
    /// Kept: a C over 16 of an unused node counts as 5.
    UnusedCountFive,
    /// A refused reading answers with an empty sheet instead of zeros.
    RefusedNotZero,
    /// An accepted reading leaves 0 in the successors of unused nodes.
    UnusedKeptZero,
    /// An accepted reading leaves 0 in the unused successors of its nodes.
    UnusedEventKeptZero,
    /// An accepted reading exchanges E and N.
    EventsNodesExchanged,
    /// A set is read with its low byte first.
    SetsLowByteFirst,
    /// A code is read with its low byte first.
    CodesLowByteFirst,
    /// The codes of a version 1 sheet are counted from 0.
    FirstCodesFromZero,
    /// A version 1 sheet has codes in all twelve places.
    FirstCodesInAllPlaces,
    /// A version 2 sheet gets the codes of version 1.
    CodesNotKept,
}

impl Fault {
    /// Every planted fault.
    pub const ALL: [Fault; 53] = [
        Fault::LengthWithoutFour,
        Fault::LengthTwoBytes,
        Fault::VersionBeforeLength,
        Fault::VersionIgnored,
        Fault::VersionTwoRefused,
        Fault::VersionThreeAccepted,
        Fault::RangesBeforeVersion,
        Fault::EventsZero,
        Fault::NodesThirtyThree,
        Fault::EventsThirteen,
        Fault::CodesBeforeRanges,
        Fault::TwiceBeforeCut,
        Fault::TwiceAfterNodes,
        Fault::TwiceIgnored,
        Fault::TwiceInAllPlaces,
        Fault::TwiceNeighbours,
        Fault::TwiceWithoutLast,
        Fault::TwiceLowByte,
        Fault::CodeZeroRefused,
        Fault::NodesAtSeven,
        Fault::RestIgnored,
        Fault::FitBeforeCount,
        Fault::FourFiveSwapped,
        Fault::CountSeventeen,
        Fault::CountZero,
        Fault::SuccessorsBeforeCounts,
        Fault::SuccessorEqualsNodes,
        Fault::SetsBeforeSuccessors,
        Fault::OrderIgnored,
        Fault::OrderNotStrict,
        Fault::OutsideInitials,
        Fault::InclusionNeighbours,
        Fault::EmptyNotAlone,
        Fault::ReachIgnored,
        Fault::ReachRoundShort,
        Fault::ReachEventShort,
        Fault::ReachBeforeSets,
        Fault::UnusedSuccessorIgnored,
        Fault::UnusedSetIgnored,
        Fault::UnusedCountIgnored,
        Fault::UnusedCodeIgnored,
        Fault::UnusedCodeEighteen,
        Fault::UnusedSuccessorSix,
        Fault::UnusedCountFive,
        Fault::RefusedNotZero,
        Fault::UnusedKeptZero,
        Fault::UnusedEventKeptZero,
        Fault::EventsNodesExchanged,
        Fault::SetsLowByteFirst,
        Fault::CodesLowByteFirst,
        Fault::FirstCodesFromZero,
        Fault::FirstCodesInAllPlaces,
        Fault::CodesNotKept,
    ];

    /// Whether the fault can change the answer of a check.
    pub fn in_check(self) -> bool {
        !matches!(
            self,
            Fault::None
                | Fault::LengthWithoutFour
                | Fault::LengthTwoBytes
                | Fault::VersionBeforeLength
                | Fault::VersionIgnored
                | Fault::VersionTwoRefused
                | Fault::VersionThreeAccepted
                | Fault::RangesBeforeVersion
                | Fault::TwiceBeforeCut
                | Fault::NodesAtSeven
                | Fault::RestIgnored
                | Fault::FitBeforeCount
                | Fault::RefusedNotZero
                | Fault::UnusedKeptZero
                | Fault::UnusedEventKeptZero
                | Fault::EventsNodesExchanged
                | Fault::SetsLowByteFirst
                | Fault::CodesLowByteFirst
                | Fault::FirstCodesFromZero
                | Fault::FirstCodesInAllPlaces
                | Fault::CodesNotKept
        )
    }

    /// Whether the fault can change the answer of a reading.
    pub fn in_read(self) -> bool {
        !matches!(
            self,
            Fault::None
                | Fault::SuccessorsBeforeCounts
                | Fault::UnusedSuccessorIgnored
                | Fault::UnusedSetIgnored
                | Fault::UnusedCountIgnored
                | Fault::UnusedCodeIgnored
                | Fault::UnusedCodeEighteen
                | Fault::UnusedSuccessorSix
                | Fault::UnusedCountFive
        )
    }
}

/// The whole answer of a reading: 0 and the kept sheet, or the number and zeros.
#[derive(Clone, Copy, PartialEq, Eq, Debug)]
pub struct ReadAnswer {
    pub number: u8,
    pub sheet: Sheet,
}

/// Reads bytes with a fault planted.
pub fn read_with(fault: Fault, bytes: &[u8]) -> ReadAnswer {
    match read_nodes(fault, bytes) {
        Ok(found) => ReadAnswer {
            number: 0,
            sheet: keep(fault, &found),
        },
        Err(number) => ReadAnswer {
            number: swapped(fault, number),
            sheet: refused_sheet(fault),
        },
    }
}

/// Checks a kept sheet with a fault planted: 0, or 3, 18, 5, 6, 7 or 8.
pub fn check_with(fault: Fault, sheet: &Sheet) -> u8 {
    match check_kept(fault, sheet) {
        Ok(()) => 0,
        Err(number) => swapped(fault, number),
    }
}

fn swapped(fault: Fault, number: u8) -> u8 {
    match (fault, number) {
        (Fault::FourFiveSwapped, 4) => 5,
        (Fault::FourFiveSwapped, 5) => 4,
        _ => number,
    }
}

fn refused_sheet(fault: Fault) -> Sheet {
    match fault {
        Fault::RefusedNotZero => Sheet::build::<[u8; 0], [u16; 0]>(0, &[]),
        _ => Sheet::ZERO,
    }
}
