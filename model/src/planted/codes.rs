//! The codes of two sheets, looked at with a fault planted. Each call on two sheets plants these.

use crate::sheet::Sheet;

/// One planted fault of the codes of two sheets, or none.
#[derive(Clone, Copy, PartialEq, Eq, Debug)]
pub enum CodesFault {
    /// No fault.
    None,
    /// The codes are not looked at.
    Ignored,
    /// The codes are compared as sets.
    AsSets,
    /// The code of the last event is not compared.
    LastIgnored,
    /// Only the low bytes of the codes are compared.
    LowByte,
}

/// 19: whether two sheets give an event that both have different codes.
pub fn codes_differ(fault: CodesFault, reference: &Sheet, device: &Sheet) -> bool {
    let (mine, theirs) = (reference.used_codes(), device.used_codes());
    let mut both = mine.iter().zip(theirs);
    let last = mine.len().saturating_sub(1);
    match fault {
        CodesFault::None => both.any(|(a, b)| a != b),
        CodesFault::Ignored => false,
        CodesFault::AsSets => !mine.iter().all(|code| theirs.contains(code)),
        CodesFault::LastIgnored => both.take(last).any(|(a, b)| a != b),
        CodesFault::LowByte => both.any(|(a, b)| a % 256 != b % 256),
    }
}
