//! The text of `walk` with a fault planted.

use super::super::faults;
use super::super::walks::{walk_with, WalkFault};
use super::joined;
use crate::load::{walk_of, MAX_WALK};
use crate::sheet::{read, Sheet};
use crate::text::walk::Call;
use crate::text::{meaning, MAX_INPUT};

faults! {
    /// One planted fault of the text, or none.
    WalkTextFault {
        /// One byte less is read.
        OneByteLess,
        /// One byte more is read.
        OneByteMore,
        /// Every byte is read.
        EveryByteRead,
        /// An input of more bytes than are read is refused with 1.
        LongInputIsOne,
        /// Bytes after the end that the length field says are not looked at.
        TrailingIgnored,
        /// Nodes and events are exchanged in the sheet's line.
        HeadExchanged,
        /// The sheet's line calls it the reference.
        HeadOfReference,
        /// The sheet's line is left out.
        HeadLeftOut,
        /// The sheet's line is left out before a walk.
        HeadOfRefusalsOnly,
        /// The sheet's line stands last.
        HeadLast,
        /// A refused sheet does not say what it means.
        NoMeaning,
        /// A refused sheet has the meaning of the next one.
        NextMeaning,
        /// A refused sheet is told as a refused reference.
        RefusedReference,
        /// Refused words are told after a refused sheet too.
        RefusedTwice,
        /// 27 is looked for before the sheet.
        TwentySevenBeforeSheet,
        /// 28 is looked for before the sheet.
        TwentyEightBeforeSheet,
        /// 28 is looked for before 27.
        TwentyEightFirst,
        /// 27 and 28 have each other's number.
        NumbersExchanged,
        /// 28 is told as 27.
        TwentySevenAlways,
        /// 27 is told as 28.
        TwentyEightAlways,
        /// 27 stands alone.
        TwentySevenAlone,
        /// 28 stands alone.
        TwentyEightAlone,
        /// The number of refused words is left out.
        RefusedWithoutNumber,
        /// Refused words are told as a refused sheet.
        RefusedIsSheet,
        /// Refused words have an empty trace after them.
        RefusedWithTrace,
        /// Without words the seed is 1 and the length 8.
        NoWordWalks,
        /// A missing length counts as 0.
        MissingLengthIsZero,
        /// A missing length counts as 4,096.
        MissingLengthIsMost,
        /// A missing length is refused with 28.
        MissingLengthTwentyEight,
        /// A third word is not looked at.
        ThirdWordIgnored,
        /// A third word is refused with 28.
        ThirdWordTwentyEight,
        /// Another number of words than two prints nothing.
        WrongCountSilent,
        /// The words are exchanged.
        WordsExchanged,
        /// An empty word is not counted.
        EmptyWordIgnored,
        /// A word of more than 64 bytes is not counted.
        LongWordIgnored,
        /// A word is two at a blank inside it.
        WordsSplit,
        /// Seed: eleven digits are read.
        SeedElevenDigits,
        /// Seed: any number of digits is read.
        SeedAnyDigits,
        /// Seed: ten digits are none.
        SeedNineDigits,
        /// Seed: more than five digits are none.
        SeedFiveDigits,
        /// Seed: 0 is accepted.
        SeedZeroAccepted,
        /// Seed: 0 is taken as 1.
        SeedZeroIsOne,
        /// Seed: 1 is refused.
        SeedOneRefused,
        /// Seed: a number above 65,535 is refused.
        SeedOfSixteenBits,
        /// Seed: a number from 2,147,483,648 on is refused.
        SeedSigned,
        /// Seed: 4,294,967,295 is refused.
        SeedLastRefused,
        /// Seed: 4,294,967,296 is accepted as 0.
        SeedOneMore,
        /// Seed: a number above 4,294,967,295 loses its high bits.
        SeedWraps,
        /// Seed: a number above 4,294,967,295 is taken as that.
        SeedCapped,
        /// Seed: the walk gets the low 16 bits.
        SeedLowWord,
        /// Seed: it is read in base 16.
        SeedHex,
        /// Seed: a number after `0x` is read in base 16.
        SeedHexAfterSign,
        /// Seed: a number with a leading zero is read in base 8.
        SeedOctal,
        /// Seed: a number with a leading zero counts as none.
        SeedZerosRefused,
        /// Seed: a sign before a number is read.
        SeedSignRead,
        /// Seed: blanks around a number are not looked at.
        SeedBlanksTrimmed,
        /// Seed: what stands after a number is not looked at.
        SeedTailIgnored,
        /// Seed: the byte before `0` is read as 0.
        SeedSlashRead,
        /// Seed: the byte after `9` is read as 10.
        SeedColonRead,
        /// Seed: a word that is no number counts as 1.
        SeedWrongIsOne,
        /// Length: six digits are read.
        LengthSixDigits,
        /// Length: any number of digits is read.
        LengthAnyDigits,
        /// Length: five digits are none.
        LengthFourDigits,
        /// Length: 0 is refused.
        LengthZeroRefused,
        /// Length: 4,096 is refused.
        LengthMostRefused,
        /// Length: 4,097 is accepted.
        LengthOneMore,
        /// Length: a number up to 65,535 is accepted.
        LengthUnbounded,
        /// Length: a number above 4,096 is taken as that.
        LengthCapped,
        /// Length: a number above 65,535 loses its high bits.
        LengthWraps,
        /// Length: only the low 13 bits are looked at.
        LengthLowBits,
        /// Length: only the low byte is looked at.
        LengthLowByte,
        /// Length: it is read in base 16.
        LengthHex,
        /// Length: a number with a leading zero counts as none.
        LengthZerosRefused,
        /// Length: a sign before a number is read.
        LengthSignRead,
        /// Length: blanks around a number are not looked at.
        LengthBlanksTrimmed,
        /// Length: what stands after a number is not looked at.
        LengthTailIgnored,
        /// Length: the byte before `0` is read as 0.
        LengthSlashRead,
        /// Length: the byte after `9` is read as 10.
        LengthColonRead,
        /// Length: a word that is no number counts as 0.
        LengthWrongIsZero,
        /// Length: a word that is no number counts as 4,096.
        LengthWrongIsMost,
        /// Length: a word that is no number is refused with 27.
        LengthWrongTwentySeven,
        /// The wish is printed for the length.
        WishForLength,
        /// The length is printed for the wish.
        LengthForWish,
        /// Length and wish are exchanged.
        WishExchanged,
        /// The wish is left out.
        WishLeftOut,
        /// The wish is left out unless the walk ended early.
        WishOfEarlyOnly,
        /// The word `of` is left out.
        OfLeftOut,
        /// The wish is printed as it was typed.
        WishAsTyped,
        /// The number 0 has no digit.
        NothingForZero,
        /// Of a number of four digits the last three are printed.
        ThreeDigits,
        /// Numbers are printed with four digits.
        FourDigits,
        /// The line of the length is left out.
        WalkedLeftOut,
        /// The line of the length stands after the trace.
        WalkedLast,
        /// The trace is left out.
        TraceLeftOut,
        /// An empty trace has no line.
        EmptyTraceLeftOut,
        /// An empty trace has a blank.
        EmptyTraceBlank,
        /// A trace ends with a blank.
        BlankAtEnd,
        /// There are no blanks between events.
        BlanksLeftOut,
        /// The trace is the whole list.
        TraceOfList,
        /// The trace goes on with event 0 up to the wish.
        TraceToWish,
        /// The last event is left out.
        LastEventLeftOut,
        /// The trace has at most 1,023 events.
        TraceCut,
        /// The trace has as many events as the low byte of the length says.
        TraceLowByte,
        /// The trace is turned round.
        TraceBackwards,
        /// Of an event of two digits the last is printed.
        LastDigit,
        /// Events are printed from 1 on.
        EventsFromOne,
        /// The codes of the events are printed.
        CodesForEvents,
        /// The last line has no newline.
        NoLastNewline,
        /// The first event is from the seed itself.
        SeedFirst,
        /// Each step takes the first state after the seed.
        FirstStateKept,
        /// The second shift is by 16.
        ShiftSixteen,
        /// High bits are not dropped: the state has 64 bits.
        WideState,
        /// The initials descend.
        Descending,
        /// The remainder is by E.
        RemainderByEvents,
        /// The remainder is of the state as a number with a sign.
        SignedRemainder,
        /// The number among the initials is printed.
        NumberWritten,
        /// The node that is reached is printed.
        NodeWritten,
        /// The walk ends where the node may stop.
        MayStopEnds,
        /// The walk starts at the last node.
        StartsAtLast,
        /// Each step leads to the successor on the first initial.
        SuccessorOfFirst,
        /// A walk goes on at node 0 where there are no initials.
        EndGoesBack,
        /// A walk has event 0 up to the wish where there are no initials.
        EndIsZero,
        /// The walk stops one event early.
        OneEarly,
    }
}

/// The fault of the call that a fault of the text comes from; no fault comes from none.
fn call_fault(fault: WalkTextFault) -> Option<WalkFault> {
    Some(match fault {
        WalkTextFault::None => WalkFault::None,
        WalkTextFault::SeedFirst => WalkFault::SeedFirst,
        WalkTextFault::FirstStateKept => WalkFault::FirstStateKept,
        WalkTextFault::ShiftSixteen => WalkFault::ShiftSixteen,
        WalkTextFault::WideState => WalkFault::WideState,
        WalkTextFault::Descending => WalkFault::Descending,
        WalkTextFault::RemainderByEvents => WalkFault::RemainderByEvents,
        WalkTextFault::SignedRemainder => WalkFault::SignedRemainder,
        WalkTextFault::NumberWritten => WalkFault::NumberWritten,
        WalkTextFault::NodeWritten => WalkFault::NodeWritten,
        WalkTextFault::MayStopEnds => WalkFault::MayStopEnds,
        WalkTextFault::StartsAtLast => WalkFault::StartsAtLast,
        WalkTextFault::SuccessorOfFirst => WalkFault::SuccessorOfFirst,
        WalkTextFault::EndGoesBack => WalkFault::EndGoesBack,
        WalkTextFault::EndIsZero => WalkFault::EndIsZero,
        WalkTextFault::OneEarly => WalkFault::OneEarly,
        _ => return None,
    })
}

/// The faults in which the reading of one of the two words may be too lax or too strict.
struct Reading {
    hex: WalkTextFault,
    zeros: WalkTextFault,
    sign: WalkTextFault,
    blanks: WalkTextFault,
    tail: WalkTextFault,
    slash: WalkTextFault,
    colon: WalkTextFault,
}

const SEED: Reading = Reading {
    hex: WalkTextFault::SeedHex,
    zeros: WalkTextFault::SeedZerosRefused,
    sign: WalkTextFault::SeedSignRead,
    blanks: WalkTextFault::SeedBlanksTrimmed,
    tail: WalkTextFault::SeedTailIgnored,
    slash: WalkTextFault::SeedSlashRead,
    colon: WalkTextFault::SeedColonRead,
};

const LENGTH: Reading = Reading {
    hex: WalkTextFault::LengthHex,
    zeros: WalkTextFault::LengthZerosRefused,
    sign: WalkTextFault::LengthSignRead,
    blanks: WalkTextFault::LengthBlanksTrimmed,
    tail: WalkTextFault::LengthTailIgnored,
    slash: WalkTextFault::LengthSlashRead,
    colon: WalkTextFault::LengthColonRead,
};

/// The output of a call.
pub fn output_with(fault: WalkTextFault, call: &Call) -> String {
    if fault == WalkTextFault::WrongCountSilent && call.words.len() != 2 {
        return String::new();
    }
    let words = words_with(fault, &call.words);
    let asked = asked_with(fault, &words);
    let lines = match (fault, asked) {
        (WalkTextFault::TwentySevenBeforeSheet, Err(27))
        | (WalkTextFault::TwentyEightBeforeSheet, Err(28)) => refused_lines(fault, asked.err()),
        _ => match sheet_with(fault, &call.input) {
            Ok(sheet) => sheet_lines(fault, &sheet, &words, asked),
            Err(number) => refused_sheet(fault, number, asked.err()),
        },
    };
    let mut text = joined(&lines);
    if fault == WalkTextFault::NoLastNewline {
        text.pop();
    }
    text
}

/// The sheet that is read of an input, or its refusal.
fn sheet_with(fault: WalkTextFault, input: &[u8]) -> Result<Sheet, u8> {
    let most = match fault {
        WalkTextFault::OneByteLess => MAX_INPUT - 1,
        WalkTextFault::OneByteMore => MAX_INPUT + 1,
        WalkTextFault::EveryByteRead => usize::MAX,
        _ => MAX_INPUT,
    };
    let seen = &input[..input.len().min(most)];
    match fault {
        WalkTextFault::LongInputIsOne if input.len() > MAX_INPUT => Err(1),
        WalkTextFault::TrailingIgnored => read(front(seen)),
        _ => read(seen),
    }
}

/// The bytes up to the end that the length field says, or all if there are not so many.
fn front(input: &[u8]) -> &[u8] {
    let field = input
        .first_chunk::<4>()
        .map(|field| u32::from_be_bytes(*field));
    let end = field.map_or(input.len(), |field| field as usize + 4);
    &input[..end.min(input.len())]
}

/// The words that are heard in place of some words.
fn words_with(fault: WalkTextFault, words: &[String]) -> Vec<String> {
    let with = |more: &str| [&words[..1], &[more.to_string()]].concat();
    match (fault, words.len()) {
        (WalkTextFault::NoWordWalks, 0) => vec!["1".to_string(), "8".to_string()],
        (WalkTextFault::MissingLengthIsZero, 1) => with("0"),
        (WalkTextFault::MissingLengthIsMost, 1) => with("4096"),
        (WalkTextFault::MissingLengthTwentyEight, 1) => with(""),
        (WalkTextFault::ThirdWordIgnored, 3) => words[..2].to_vec(),
        (WalkTextFault::ThirdWordTwentyEight, 3) => with(""),
        (WalkTextFault::WordsExchanged, _) => words.iter().rev().cloned().collect(),
        (WalkTextFault::EmptyWordIgnored, _) => {
            let kept = words.iter().filter(|word| !word.is_empty());
            kept.cloned().collect()
        }
        (WalkTextFault::LongWordIgnored, _) => {
            let kept = words.iter().filter(|word| word.len() <= 64);
            kept.cloned().collect()
        }
        (WalkTextFault::WordsSplit, _) => {
            let parts = words.iter().flat_map(|word| word.split(' '));
            parts.map(String::from).collect()
        }
        _ => words.to_vec(),
    }
}

/// The seed and the wish that some words ask for, or the refusal.
fn asked_with(fault: WalkTextFault, words: &[String]) -> Result<(u32, u16), u8> {
    let [first, second] = words else {
        return Err(27);
    };
    match (seed_with(fault, first), wish_with(fault, second)) {
        (Some(seed), Some(wish)) => Ok((seed, wish)),
        (None, None) if fault == WalkTextFault::TwentyEightFirst => Err(28),
        (None, _) => Err(27),
        (_, None) if fault == WalkTextFault::LengthWrongTwentySeven => {
            let number = value_with(fault, &LENGTH, second, 5);
            Err(number.map_or(27, |_| 28))
        }
        (_, None) => Err(28),
    }
}

/// The seed of a word.
fn seed_with(fault: WalkTextFault, word: &str) -> Option<u32> {
    const MOST: u64 = u32::MAX as u64;
    let digits = match fault {
        WalkTextFault::SeedElevenDigits => 11,
        WalkTextFault::SeedAnyDigits => usize::MAX,
        WalkTextFault::SeedNineDigits => 9,
        WalkTextFault::SeedFiveDigits => 5,
        _ => 10,
    };
    let value = match (fault, value_with(fault, &SEED, word, digits)) {
        (WalkTextFault::SeedWrongIsOne, None) => 1,
        (WalkTextFault::SeedZeroIsOne, value) => value?.max(1),
        (WalkTextFault::SeedWraps, value) => value? % (MOST + 1),
        (WalkTextFault::SeedCapped, value) => value?.min(MOST),
        (_, value) => value?,
    };
    let seeds = match fault {
        WalkTextFault::SeedZeroAccepted => 0..=MOST,
        WalkTextFault::SeedOneRefused => 2..=MOST,
        WalkTextFault::SeedOfSixteenBits => 1..=u16::MAX.into(),
        WalkTextFault::SeedSigned => 1..=MOST / 2,
        WalkTextFault::SeedLastRefused => 1..=MOST - 1,
        WalkTextFault::SeedOneMore => 1..=MOST + 1,
        _ => 1..=MOST,
    };
    let seed = match fault {
        WalkTextFault::SeedLowWord => u32::from(value as u16),
        _ => value as u32,
    };
    seeds.contains(&value).then_some(seed)
}

/// The wish of a word.
fn wish_with(fault: WalkTextFault, word: &str) -> Option<u16> {
    let digits = match fault {
        WalkTextFault::LengthSixDigits => 6,
        WalkTextFault::LengthAnyDigits => usize::MAX,
        WalkTextFault::LengthFourDigits => 4,
        _ => 5,
    };
    let most = u64::from(MAX_WALK);
    let value = match (fault, value_with(fault, &LENGTH, word, digits)) {
        (WalkTextFault::LengthWrongIsZero, None) => 0,
        (WalkTextFault::LengthWrongIsMost, None) => most,
        (WalkTextFault::LengthCapped, value) => value?.min(most),
        (WalkTextFault::LengthWraps, value) => value? % (1 << 16),
        (WalkTextFault::LengthLowBits, value) => value? % (1 << 13),
        (WalkTextFault::LengthLowByte, value) => value? % (1 << 8),
        (_, value) => value?,
    };
    let wishes = match fault {
        WalkTextFault::LengthZeroRefused => 1..=most,
        WalkTextFault::LengthMostRefused => 0..=most - 1,
        WalkTextFault::LengthOneMore => 0..=most + 1,
        WalkTextFault::LengthUnbounded => 0..=u16::MAX.into(),
        _ => 0..=most,
    };
    wishes.contains(&value).then_some(value as u16)
}

/// The value of a word of one to `most` digits.
fn value_with(fault: WalkTextFault, reading: &Reading, word: &str, most: usize) -> Option<u64> {
    let signed = word.strip_prefix(['+', '-']);
    let after = word.find(|letter: char| !letter.is_ascii_digit());
    let marked = word.strip_prefix("0x");
    let word = match fault {
        _ if fault == reading.sign => signed.unwrap_or(word),
        _ if fault == reading.blanks => word.trim(),
        _ if fault == reading.tail => &word[..after.unwrap_or(word.len())],
        WalkTextFault::SeedHexAfterSign => marked.unwrap_or(word),
        _ => word,
    };
    let zeros = word.len() > 1 && word.starts_with('0');
    if !(1..=most).contains(&word.len()) || fault == reading.zeros && zeros {
        return None;
    }
    let base = match fault {
        _ if fault == reading.hex => 16,
        WalkTextFault::SeedHexAfterSign if marked.is_some() => 16,
        WalkTextFault::SeedOctal if zeros => 8,
        _ => 10,
    };
    let digit = |byte: u8| match byte {
        b'/' if fault == reading.slash => Some(0),
        b':' if fault == reading.colon => Some(10),
        _ => char::from(byte).to_digit(base).map(u64::from),
    };
    word.bytes().try_fold(0u64, |value, byte| {
        let value = value.checked_mul(base.into())?;
        value.checked_add(digit(byte)?)
    })
}

/// The lines of a refused sheet.
fn refused_sheet(fault: WalkTextFault, number: u8, words: Option<u8>) -> Vec<String> {
    let mut lines = vec![match fault {
        WalkTextFault::NoMeaning => format!("sheet refused {number}"),
        WalkTextFault::NextMeaning => format!("sheet refused {number} {}", meaning(number % 8 + 1)),
        WalkTextFault::RefusedReference => format!("reference refused {number}"),
        _ => format!("sheet refused {number} {}", meaning(number)),
    }];
    if fault == WalkTextFault::RefusedTwice {
        lines.extend(refused_lines(fault, words));
    }
    lines
}

/// The lines of refused words; none if they are not refused.
fn refused_lines(fault: WalkTextFault, words: Option<u8>) -> Vec<String> {
    let Some(number) = words else {
        return Vec::new();
    };
    let number = match fault {
        WalkTextFault::NumbersExchanged => 27 + 28 - number,
        WalkTextFault::TwentySevenAlways => 27,
        WalkTextFault::TwentyEightAlways => 28,
        _ => number,
    };
    let line = match fault {
        WalkTextFault::RefusedWithoutNumber => "walk refused".to_string(),
        WalkTextFault::RefusedIsSheet => format!("sheet refused {number}"),
        _ => format!("walk refused {number}"),
    };
    match fault {
        WalkTextFault::RefusedWithTrace => vec![line, "trace".to_string()],
        _ => vec![line],
    }
}

/// The lines of an accepted sheet.
fn sheet_lines(
    fault: WalkTextFault,
    sheet: &Sheet,
    words: &[String],
    asked: Result<(u32, u16), u8>,
) -> Vec<String> {
    let (n, e) = (sheet.n, sheet.e);
    let head = match fault {
        WalkTextFault::HeadExchanged => format!("sheet {e} nodes {n} events"),
        WalkTextFault::HeadOfReference => format!("reference {n} nodes {e} events"),
        _ => format!("sheet {n} nodes {e} events"),
    };
    let mut lines = match asked {
        Ok((seed, wish)) => {
            let events = events_with(fault, sheet, seed, wish);
            walk_lines(fault, sheet, &events, wish, &words[1])
        }
        Err(number) => refused_lines(fault, Some(number)),
    };
    match (fault, asked) {
        (WalkTextFault::HeadLeftOut, _)
        | (WalkTextFault::HeadOfRefusalsOnly, Ok(_))
        | (WalkTextFault::TwentySevenAlone, Err(27))
        | (WalkTextFault::TwentyEightAlone, Err(28)) => {}
        (WalkTextFault::HeadLast, _) => lines.push(head),
        _ => lines.insert(0, head),
    }
    lines
}

/// The events of a walk.
fn events_with(fault: WalkTextFault, sheet: &Sheet, seed: u32, wish: u16) -> Vec<u8> {
    let Some(other) = call_fault(fault) else {
        return walk_of(sheet, seed, wish);
    };
    let mut list = vec![0; MAX_WALK.into()];
    let answer = walk_with(other, sheet, seed, wish, &mut list);
    list.truncate(answer.length.into());
    list
}

/// The lines of a walk; the wish was typed as `typed`.
fn walk_lines(
    fault: WalkTextFault,
    sheet: &Sheet,
    events: &[u8],
    wish: u16,
    typed: &str,
) -> Vec<String> {
    let walked = walked_line(fault, events.len(), wish.into(), typed);
    let trace = trace_line(fault, sheet, events, wish);
    match fault {
        WalkTextFault::WalkedLeftOut => vec![trace],
        WalkTextFault::WalkedLast => vec![trace, walked],
        WalkTextFault::TraceLeftOut => vec![walked],
        WalkTextFault::EmptyTraceLeftOut if events.is_empty() => vec![walked],
        _ => vec![walked, trace],
    }
}

/// The line of a walk's length.
fn walked_line(fault: WalkTextFault, length: usize, wish: usize, typed: &str) -> String {
    let early = length < wish;
    let number = |number: usize| match (fault, number) {
        (WalkTextFault::NothingForZero, 0) => String::new(),
        (WalkTextFault::ThreeDigits, _) => (number % 1_000).to_string(),
        (WalkTextFault::FourDigits, _) => format!("{number:04}"),
        _ => number.to_string(),
    };
    let (length, wish) = (number(length), number(wish));
    match fault {
        WalkTextFault::WishForLength => format!("walked {wish} of {wish}"),
        WalkTextFault::LengthForWish => format!("walked {length} of {length}"),
        WalkTextFault::WishExchanged => format!("walked {wish} of {length}"),
        WalkTextFault::WishLeftOut => format!("walked {length}"),
        WalkTextFault::WishOfEarlyOnly if !early => format!("walked {length}"),
        WalkTextFault::OfLeftOut => format!("walked {length} {wish}"),
        WalkTextFault::WishAsTyped => format!("walked {length} of {typed}"),
        _ => format!("walked {length} of {wish}"),
    }
}

/// The line of a walk's events.
fn trace_line(fault: WalkTextFault, sheet: &Sheet, events: &[u8], wish: u16) -> String {
    let mut shown = events.to_vec();
    match fault {
        WalkTextFault::TraceOfList => shown.resize(MAX_WALK.into(), 0),
        WalkTextFault::TraceToWish => shown.resize(wish.into(), 0),
        WalkTextFault::LastEventLeftOut => shown.truncate(events.len().saturating_sub(1)),
        WalkTextFault::TraceCut => shown.truncate(1_023),
        WalkTextFault::TraceLowByte => shown.truncate(events.len() % 256),
        WalkTextFault::TraceBackwards => shown.reverse(),
        _ => {}
    }
    let word = |&event: &u8| match fault {
        WalkTextFault::LastDigit => (event % 10).to_string(),
        WalkTextFault::EventsFromOne => (event + 1).to_string(),
        WalkTextFault::CodesForEvents => sheet.codes[usize::from(event)].to_string(),
        _ => event.to_string(),
    };
    let words: Vec<String> = shown.iter().map(word).collect();
    match (fault, words.is_empty()) {
        (WalkTextFault::EmptyTraceBlank, true) => "trace ".to_string(),
        (_, true) => "trace".to_string(),
        (WalkTextFault::BlankAtEnd, _) => format!("trace {} ", words.join(" ")),
        (WalkTextFault::BlanksLeftOut, _) => format!("trace {}", words.concat()),
        _ => format!("trace {}", words.join(" ")),
    }
}
