//! What `bound_pair` writes with a fault planted.

use super::super::bounds::{sheets_with, BoundFault};
use super::super::faults;
use super::{joined, owned};
use crate::text::bound_pair::{asked, heard, Asked, Written, REFUSED, USAGE};

faults! {
    /// One planted fault of the program, or none.
    BoundTextFault {
        /// Without words p and q are 1, and the lines are asked for.
        NoWordIsLeast,
        /// A missing last word counts as `lines`.
        MissingWordIsLines,
        /// Words after the third are not looked at.
        MoreWordsIgnored,
        /// Of more than three words the last three are looked at.
        LastWordsTaken,
        /// Another number of words than three is refused with 30.
        WrongCountRefused,
        /// Another number of words than three has no line.
        WrongCountSilent,
        /// P and Q are exchanged.
        WordsExchanged,
        /// WORD stands before P and Q.
        WordFirst,
        /// An empty word is not counted.
        EmptyWordIgnored,
        /// A word of more than 64 bytes is not counted.
        LongWordIgnored,
        /// A word is two at a blank inside it.
        WordsSplit,
        /// P: it is read in base 16.
        PHex,
        /// P: a number after `0x` is read in base 16.
        PHexAfterSign,
        /// P: a number with a leading zero is read in base 8.
        POctal,
        /// P: a number with a leading zero counts as none.
        PZerosRefused,
        /// P: a sign before a number is read.
        PSignRead,
        /// P: blanks around a number are not looked at.
        PBlanksTrimmed,
        /// P: what stands after a number is not looked at.
        PTailIgnored,
        /// P: the byte before `0` is read as 0.
        PSlashRead,
        /// P: the byte after `9` is read as 10.
        PColonRead,
        /// P: three digits are none.
        PTwoDigits,
        /// P: four digits are read.
        PFourDigits,
        /// P: any number of digits is read.
        PAnyDigits,
        /// P: a number above 255 loses its high bits.
        PWraps,
        /// P: a number above 32 counts as 32.
        PCapped,
        /// P: 0 counts as 1.
        PZeroIsOne,
        /// P: 1 is refused.
        POneRefused,
        /// P: 32 is refused.
        PMostRefused,
        /// P: 33 is accepted.
        POneMore,
        /// P: no byte counts as 1.
        PEmptyIsOne,
        /// P: a word that is no number counts as 1.
        PWrongIsOne,
        /// Q: it is read in base 16.
        QHex,
        /// Q: a number after `0x` is read in base 16.
        QHexAfterSign,
        /// Q: a number with a leading zero is read in base 8.
        QOctal,
        /// Q: a number with a leading zero counts as none.
        QZerosRefused,
        /// Q: a sign before a number is read.
        QSignRead,
        /// Q: blanks around a number are not looked at.
        QBlanksTrimmed,
        /// Q: what stands after a number is not looked at.
        QTailIgnored,
        /// Q: the byte before `0` is read as 0.
        QSlashRead,
        /// Q: the byte after `9` is read as 10.
        QColonRead,
        /// Q: three digits are none.
        QTwoDigits,
        /// Q: four digits are read.
        QFourDigits,
        /// Q: any number of digits is read.
        QAnyDigits,
        /// Q: a number above 255 loses its high bits.
        QWraps,
        /// Q: a number above 32 counts as 32.
        QCapped,
        /// Q: 0 counts as 1.
        QZeroIsOne,
        /// Q: 1 is refused.
        QOneRefused,
        /// Q: 32 is refused.
        QMostRefused,
        /// Q: 33 is accepted.
        QOneMore,
        /// Q: no byte counts as 1.
        QEmptyIsOne,
        /// Q: a word that is no number counts as 1.
        QWrongIsOne,
        /// The reference is written whatever Q is.
        ReferenceWithoutQ,
        /// The device is written whatever P is.
        DeviceWithoutP,
        /// A pair is refused only if both numbers are out of range; a wrong one counts as 1.
        BothAsked,
        /// WORD: large letters count as small ones.
        WordCaseIgnored,
        /// WORD: the front of a word counts as the word.
        WordFrontTaken,
        /// WORD: only the first four letters are looked at.
        WordFourLetters,
        /// WORD: what stands after a word is not looked at.
        WordTailIgnored,
        /// WORD: blanks around it are not looked at.
        WordBlanksTrimmed,
        /// WORD: no byte counts as `lines`.
        WordEmptyIsLines,
        /// WORD: every other word counts as `lines`.
        WordWrongIsLines,
        /// WORD: `lines` is the only word.
        WordLinesOnly,
        /// Refused numbers are told before a wrong WORD.
        NumbersFirst,
        /// Refused numbers are told after a wrong WORD too.
        NumbersToo,
        /// A wrong WORD is told on standard output.
        UsagePrinted,
        /// A wrong WORD is told on both.
        UsageTwice,
        /// A wrong WORD has no line.
        UsageSilent,
        /// A wrong WORD is told as refused numbers.
        UsageIsRefusal,
        /// The line of a wrong WORD does not name the program.
        UsageWithoutName,
        /// The line of a wrong WORD has the three in another order.
        UsageOtherOrder,
        /// The line of a wrong WORD has no newline.
        UsageWithoutNewline,
        /// Refused numbers are told on standard error for `lines` too.
        RefusedLinesSaid,
        /// Refused numbers are told on standard output for `reference` too.
        RefusedReferencePrinted,
        /// Refused numbers are told on standard output for `device` too.
        RefusedDevicePrinted,
        /// Refused numbers are told on both.
        RefusedTwice,
        /// Refused numbers have no line for a sheet.
        RefusedSilent,
        /// Each refused number has its line.
        RefusedEach,
        /// The number of the refusal is left out.
        RefusedWithoutNumber,
        /// The refusal is 31.
        RefusedThirtyOne,
        /// The refusal is told as a refused sheet.
        RefusedIsSheet,
        /// The refusal is told in the program's name.
        RefusedIsProgram,
        /// The line of the refusal has no newline.
        RefusedWithoutNewline,
        /// The lines of the sheets are exchanged.
        LinesExchanged,
        /// The names of the sheets are exchanged.
        NamesExchanged,
        /// The numbers of nodes are exchanged.
        NodesExchanged,
        /// The numbers of bytes are exchanged.
        BytesExchanged,
        /// Nodes and bytes are exchanged.
        NodesForBytes,
        /// Bytes are those after the length field.
        BytesWithoutFour,
        /// The reference has as many bytes as a device of p nodes.
        BytesLikeDevice,
        /// The device has as many bytes as a reference of q nodes.
        BytesLikeReference,
        /// The events are told in place of the bytes.
        EventsForBytes,
        /// The test is p q.
        TestProduct,
        /// The test is p q - 2, for one node in each sheet 0.
        TestTwoLess,
        /// The test is p + q.
        TestSum,
        /// The test is p + q - 1.
        TestSumOneLess,
        /// The test is the larger of the two.
        TestLarger,
        /// The test is p p - 1.
        TestSquare,
        /// The test is the low byte of p q - 1.
        TestLowByte,
        /// The line of the reference is left out.
        ReferenceLeftOut,
        /// The line of the device is left out.
        DeviceLeftOut,
        /// The line of the test is left out.
        TestLeftOut,
        /// The line of the test stands first.
        TestFirst,
        /// One node is told as `1 node`.
        OneNode,
        /// The numbers of nodes are printed as they were typed.
        NodesAsTyped,
        /// The number 0 has no digit.
        NothingForZero,
        /// Of a number of three digits the last two are printed.
        LastTwoDigits,
        /// Of a number of four digits the last three are printed.
        LastThreeDigits,
        /// Numbers are printed with two digits.
        TwoDigits,
        /// Numbers are printed in base 16.
        NumbersHex,
        /// Lines end with a blank.
        BlankAtEnd,
        /// The last line has no newline.
        NoLastNewline,
        /// The lines are on standard error.
        LinesSaid,
        /// Each word gets the other sheet.
        SheetsTurned,
        /// Each word gets both sheets.
        BothSheets,
        /// A sheet is on standard error.
        SheetSaid,
        /// The lines are on standard error beside a sheet.
        LinesBeside,
        /// A sheet is written in base 16.
        SheetHex,
        /// A newline stands after a sheet.
        SheetNewline,
        /// The whole list is written, with 0 after the sheet.
        SheetOfList,
        /// The length field is left out.
        SheetWithoutField,
        /// The last byte is left out.
        SheetOneLess,
        /// A sheet begins with its first byte that is not 0.
        SheetFromFirst,
        /// Bytes above 127 are written as letters of two bytes.
        SheetLetters,
        /// Bytes have seven bits.
        SheetSevenBits,
        /// A newline in a sheet gets a carriage return before it.
        SheetReturns,
        /// Nothing is written for a sheet.
        SheetLeftOut,
        /// The reference has q nodes, the device p.
        CountsExchanged,
        /// The length field is one more.
        FieldOneMore,
        /// The version is 2, with the codes of version 1.
        VersionTwoCoded,
        /// A set has its low byte first.
        SetsLowByteFirst,
        /// The numbers of nodes have four bits.
        NodesFourBits,
        /// The reference climbs on 0 and stays on 1.
        ReferenceClimbsOnZero,
        /// The reference insists on both: the one set 3.
        ReferenceInsistsOnBoth,
        /// The reference's last node knows event 1 too, staying.
        ReferenceLastStaysOnBoth,
        /// The reference's last node has the sets 1 and 2.
        ReferenceLastTwoSets,
        /// A reference of one node knows event 1 too.
        ReferenceOfOne,
        /// A reference of 32 nodes knows event 1 at its last node too.
        ReferenceOfMost,
        /// The device climbs on 1.
        DeviceClimbsOnOne,
        /// The device's last node stays on 1.
        DeviceLastStays,
        /// The device's last node goes back on 0.
        DeviceLastOnZero,
        /// The device's last node goes back on both events.
        DeviceLastOnBoth,
        /// The device's last node has the set 1.
        DeviceLastSetOne,
        /// A device of one node does event 0.
        DeviceOfOne,
        /// A device of 32 nodes does both events at its last node.
        DeviceOfMost,
    }
}

/// The fault of the call that a fault of the program comes from.
fn call_fault(fault: BoundTextFault) -> BoundFault {
    match fault {
        BoundTextFault::CountsExchanged => BoundFault::CountsExchanged,
        BoundTextFault::FieldOneMore => BoundFault::FieldOneMore,
        BoundTextFault::VersionTwoCoded => BoundFault::VersionTwoCoded,
        BoundTextFault::SetsLowByteFirst => BoundFault::SetsLowByteFirst,
        BoundTextFault::NodesFourBits => BoundFault::NodesFourBits,
        BoundTextFault::ReferenceClimbsOnZero => BoundFault::ReferenceClimbsOnZero,
        BoundTextFault::ReferenceInsistsOnBoth => BoundFault::ReferenceInsistsOnBoth,
        BoundTextFault::ReferenceLastStaysOnBoth => BoundFault::ReferenceLastStaysOnBoth,
        BoundTextFault::ReferenceLastTwoSets => BoundFault::ReferenceLastTwoSets,
        BoundTextFault::ReferenceOfOne => BoundFault::ReferenceOfOne,
        BoundTextFault::ReferenceOfMost => BoundFault::ReferenceOfMost,
        BoundTextFault::DeviceClimbsOnOne => BoundFault::DeviceClimbsOnOne,
        BoundTextFault::DeviceLastStays => BoundFault::DeviceLastStays,
        BoundTextFault::DeviceLastOnZero => BoundFault::DeviceLastOnZero,
        BoundTextFault::DeviceLastOnBoth => BoundFault::DeviceLastOnBoth,
        BoundTextFault::DeviceLastSetOne => BoundFault::DeviceLastSetOne,
        BoundTextFault::DeviceOfOne => BoundFault::DeviceOfOne,
        BoundTextFault::DeviceOfMost => BoundFault::DeviceOfMost,
        _ => BoundFault::None,
    }
}

/// The faults in which the reading of one of the two numbers may be too lax or too strict.
struct Reading {
    hex: BoundTextFault,
    hex_after_sign: BoundTextFault,
    octal: BoundTextFault,
    zeros: BoundTextFault,
    sign: BoundTextFault,
    blanks: BoundTextFault,
    tail: BoundTextFault,
    slash: BoundTextFault,
    colon: BoundTextFault,
    two_digits: BoundTextFault,
    four_digits: BoundTextFault,
    any_digits: BoundTextFault,
    wraps: BoundTextFault,
    capped: BoundTextFault,
    zero_is_one: BoundTextFault,
    one_refused: BoundTextFault,
    most_refused: BoundTextFault,
    one_more: BoundTextFault,
    empty_is_one: BoundTextFault,
    wrong_is_one: BoundTextFault,
}

const P: Reading = Reading {
    hex: BoundTextFault::PHex,
    hex_after_sign: BoundTextFault::PHexAfterSign,
    octal: BoundTextFault::POctal,
    zeros: BoundTextFault::PZerosRefused,
    sign: BoundTextFault::PSignRead,
    blanks: BoundTextFault::PBlanksTrimmed,
    tail: BoundTextFault::PTailIgnored,
    slash: BoundTextFault::PSlashRead,
    colon: BoundTextFault::PColonRead,
    two_digits: BoundTextFault::PTwoDigits,
    four_digits: BoundTextFault::PFourDigits,
    any_digits: BoundTextFault::PAnyDigits,
    wraps: BoundTextFault::PWraps,
    capped: BoundTextFault::PCapped,
    zero_is_one: BoundTextFault::PZeroIsOne,
    one_refused: BoundTextFault::POneRefused,
    most_refused: BoundTextFault::PMostRefused,
    one_more: BoundTextFault::POneMore,
    empty_is_one: BoundTextFault::PEmptyIsOne,
    wrong_is_one: BoundTextFault::PWrongIsOne,
};

const Q: Reading = Reading {
    hex: BoundTextFault::QHex,
    hex_after_sign: BoundTextFault::QHexAfterSign,
    octal: BoundTextFault::QOctal,
    zeros: BoundTextFault::QZerosRefused,
    sign: BoundTextFault::QSignRead,
    blanks: BoundTextFault::QBlanksTrimmed,
    tail: BoundTextFault::QTailIgnored,
    slash: BoundTextFault::QSlashRead,
    colon: BoundTextFault::QColonRead,
    two_digits: BoundTextFault::QTwoDigits,
    four_digits: BoundTextFault::QFourDigits,
    any_digits: BoundTextFault::QAnyDigits,
    wraps: BoundTextFault::QWraps,
    capped: BoundTextFault::QCapped,
    zero_is_one: BoundTextFault::QZeroIsOne,
    one_refused: BoundTextFault::QOneRefused,
    most_refused: BoundTextFault::QMostRefused,
    one_more: BoundTextFault::QOneMore,
    empty_is_one: BoundTextFault::QEmptyIsOne,
    wrong_is_one: BoundTextFault::QWrongIsOne,
};

/// What is written for some words.
pub fn output_with(fault: BoundTextFault, words: &[String]) -> Written {
    let words = words_with(fault, words);
    let [p, q, word] = &words[..] else {
        return match fault {
            BoundTextFault::WrongCountRefused => Written::printed(REFUSED),
            BoundTextFault::WrongCountSilent => Written::printed(""),
            _ => three_with(fault, "", "", ""),
        };
    };
    let (p, q, word) = (heard(p), heard(q), heard(word));
    match fault {
        BoundTextFault::WordsExchanged => three_with(fault, q, p, word),
        BoundTextFault::WordFirst => three_with(fault, q, word, p),
        _ => three_with(fault, p, q, word),
    }
}

/// The words that are heard in place of some words.
fn words_with(fault: BoundTextFault, words: &[String]) -> Vec<String> {
    let count = words.len();
    let kept = |good: fn(&&String) -> bool| words.iter().filter(good).cloned().collect();
    match fault {
        BoundTextFault::NoWordIsLeast if count == 0 => owned(&["1", "1", "lines"]),
        BoundTextFault::MissingWordIsLines if count == 2 => {
            [words, &["lines".to_string()]].concat()
        }
        BoundTextFault::MoreWordsIgnored if count > 3 => words[..3].to_vec(),
        BoundTextFault::LastWordsTaken if count > 3 => words[count - 3..].to_vec(),
        BoundTextFault::EmptyWordIgnored => kept(|word| !word.is_empty()),
        BoundTextFault::LongWordIgnored => kept(|word| word.len() <= 64),
        BoundTextFault::WordsSplit => {
            let parts = words.iter().flat_map(|word| word.split(' '));
            parts.map(String::from).collect()
        }
        _ => words.to_vec(),
    }
}

/// What is written for three words.
fn three_with(fault: BoundTextFault, p: &str, q: &str, word: &str) -> Written {
    let asked = asked_with(fault, word);
    let (first, second) = (count_with(fault, &P, p), count_with(fault, &Q, q));
    let wrong = usize::from(first.is_none()) + usize::from(second.is_none());
    let counts = match (fault, asked) {
        (BoundTextFault::ReferenceWithoutQ, Some(Asked::Reference)) => {
            first.map(|p| (p, second.unwrap_or(1)))
        }
        (BoundTextFault::DeviceWithoutP, Some(Asked::Device)) => {
            second.map(|q| (first.unwrap_or(1), q))
        }
        (BoundTextFault::BothAsked, _) if wrong < 2 => {
            Some((first.unwrap_or(1), second.unwrap_or(1)))
        }
        _ => first.zip(second),
    };
    match (asked, counts) {
        (None, None) if fault == BoundTextFault::NumbersFirst => Written::said(REFUSED),
        (None, None) if fault == BoundTextFault::NumbersToo => {
            Written::said(USAGE.to_string() + REFUSED)
        }
        (None, _) => usage_with(fault),
        (Some(asked), None) => refused_with(fault, asked, wrong),
        (Some(Asked::Lines), Some(counts)) => {
            let text = lines_with(fault, counts, (p, q));
            match fault {
                BoundTextFault::LinesSaid => Written::said(text),
                _ => Written::printed(text),
            }
        }
        (Some(asked), Some(counts)) => sheet_with(fault, asked, counts),
    }
}

/// What a last word asks for.
fn asked_with(fault: BoundTextFault, word: &str) -> Option<Asked> {
    let names = ["lines", "reference", "device"];
    let first = |found: &dyn Fn(&str) -> bool| names.into_iter().find(|name| found(name));
    let heard = match fault {
        BoundTextFault::WordFrontTaken if !word.is_empty() => first(&|name| name.starts_with(word)),
        BoundTextFault::WordFourLetters => first(&|name| word.get(..4) == Some(&name[..4])),
        BoundTextFault::WordTailIgnored => first(&|name| word.starts_with(name)),
        _ => None,
    };
    let small = word.to_lowercase();
    let word = match fault {
        BoundTextFault::WordCaseIgnored => &small,
        BoundTextFault::WordBlanksTrimmed => word.trim(),
        BoundTextFault::WordEmptyIsLines if word.is_empty() => "lines",
        BoundTextFault::WordLinesOnly if word != "lines" => "",
        _ => heard.unwrap_or(word),
    };
    match (fault, asked(word)) {
        (BoundTextFault::WordWrongIsLines, None) => Some(Asked::Lines),
        (_, asked) => asked,
    }
}

/// The number of nodes of a word.
fn count_with(fault: BoundTextFault, reading: &Reading, word: &str) -> Option<u8> {
    let value = match value_with(fault, reading, word) {
        None if fault == reading.wrong_is_one => 1,
        None if fault == reading.empty_is_one && word.is_empty() => 1,
        value => value?,
    };
    let value = match fault {
        _ if fault == reading.wraps => value % (1 << 8),
        _ if fault == reading.capped => value.min(32),
        _ if fault == reading.zero_is_one => value.max(1),
        _ => value,
    };
    let counts = match fault {
        _ if fault == reading.one_refused => 2..=32,
        _ if fault == reading.most_refused => 1..=31,
        _ if fault == reading.one_more => 1..=33,
        _ => 1..=32,
    };
    counts.contains(&value).then_some(value as u8)
}

/// The value of a word of one to three digits.
fn value_with(fault: BoundTextFault, reading: &Reading, word: &str) -> Option<u64> {
    let signed = word.strip_prefix(['+', '-']);
    let after = word.find(|letter: char| !letter.is_ascii_digit());
    let marked = word.strip_prefix("0x");
    let word = match fault {
        _ if fault == reading.sign => signed.unwrap_or(word),
        _ if fault == reading.blanks => word.trim(),
        _ if fault == reading.tail => &word[..after.unwrap_or(word.len())],
        _ if fault == reading.hex_after_sign => marked.unwrap_or(word),
        _ => word,
    };
    let most = match fault {
        _ if fault == reading.two_digits => 2,
        _ if fault == reading.four_digits => 4,
        _ if fault == reading.any_digits => usize::MAX,
        _ => 3,
    };
    let zeros = word.len() > 1 && word.starts_with('0');
    if !(1..=most).contains(&word.len()) || fault == reading.zeros && zeros {
        return None;
    }
    let base = match fault {
        _ if fault == reading.hex => 16,
        _ if fault == reading.hex_after_sign && marked.is_some() => 16,
        _ if fault == reading.octal && zeros => 8,
        _ => 10,
    };
    let digit = |byte: u8| match byte {
        b'/' if fault == reading.slash => Some(0),
        b':' if fault == reading.colon => Some(10),
        _ => char::from(byte).to_digit(base).map(u64::from),
    };
    word.bytes().try_fold(0u64, |value, byte| {
        let value = value.checked_mul(base.into())?;
        value.checked_add(digit(byte)?)
    })
}

/// What is written for a last word that asks for nothing.
fn usage_with(fault: BoundTextFault) -> Written {
    let line = match fault {
        BoundTextFault::UsageIsRefusal => REFUSED,
        BoundTextFault::UsageWithoutName => "WORD is reference, device or lines\n",
        BoundTextFault::UsageOtherOrder => "bound_pair: WORD is lines, reference or device\n",
        BoundTextFault::UsageWithoutNewline => USAGE.trim_end(),
        BoundTextFault::UsageSilent => "",
        _ => USAGE,
    };
    match fault {
        BoundTextFault::UsagePrinted => Written::printed(line),
        BoundTextFault::UsageTwice => on_both(line),
        _ => Written::said(line),
    }
}

/// What is written where numbers of nodes are refused, one or two of them.
fn refused_with(fault: BoundTextFault, asked: Asked, wrong: usize) -> Written {
    let line = match fault {
        BoundTextFault::RefusedEach => REFUSED.repeat(wrong),
        BoundTextFault::RefusedWithoutNumber => "bound refused\n".to_string(),
        BoundTextFault::RefusedThirtyOne => "bound refused 31\n".to_string(),
        BoundTextFault::RefusedIsSheet => "sheet refused 30\n".to_string(),
        BoundTextFault::RefusedIsProgram => "bound_pair refused 30\n".to_string(),
        BoundTextFault::RefusedWithoutNewline => REFUSED.trim_end().to_string(),
        _ => REFUSED.to_string(),
    };
    match (fault, asked) {
        (BoundTextFault::RefusedLinesSaid, Asked::Lines) => Written::said(line),
        (BoundTextFault::RefusedReferencePrinted, Asked::Reference)
        | (BoundTextFault::RefusedDevicePrinted, Asked::Device) => Written::printed(line),
        (BoundTextFault::RefusedTwice, _) => on_both(&line),
        (_, Asked::Lines) => Written::printed(line),
        (BoundTextFault::RefusedSilent, _) => Written::said(""),
        _ => Written::said(line),
    }
}

/// A line on standard output and on standard error.
fn on_both(line: &str) -> Written {
    Written {
        printed: line.into(),
        said: line.into(),
    }
}

/// The lines of two sheets, whose numbers of nodes were typed as `typed`.
fn lines_with(fault: BoundTextFault, (p, q): (u8, u8), typed: (&str, &str)) -> String {
    let (mine, theirs) = sheets_with(call_fault(fault), p, q);
    let nodes = match fault {
        BoundTextFault::NodesExchanged => (q, p),
        _ => (p, q),
    };
    let bytes = match fault {
        BoundTextFault::BytesExchanged => (theirs.len(), mine.len()),
        BoundTextFault::BytesWithoutFour => (mine.len() - 4, theirs.len() - 4),
        BoundTextFault::BytesLikeDevice => (5 * usize::from(p) + 7, theirs.len()),
        BoundTextFault::BytesLikeReference => (mine.len(), 7 * usize::from(q) + 5),
        _ => (mine.len(), theirs.len()),
    };
    let names = match fault {
        BoundTextFault::NamesExchanged => ("device", "reference"),
        _ => ("reference", "device"),
    };
    let first = sheet_line(fault, names.0, nodes.0.into(), bytes.0, typed.0);
    let second = sheet_line(fault, names.1, nodes.1.into(), bytes.1, typed.1);
    let test = test_line(fault, p.into(), q.into());
    let mut lines = match fault {
        BoundTextFault::LinesExchanged => vec![second, first, test],
        BoundTextFault::ReferenceLeftOut => vec![second, test],
        BoundTextFault::DeviceLeftOut => vec![first, test],
        BoundTextFault::TestLeftOut => vec![first, second],
        BoundTextFault::TestFirst => vec![test, first, second],
        _ => vec![first, second, test],
    };
    if fault == BoundTextFault::BlankAtEnd {
        lines.iter_mut().for_each(|line| line.push(' '));
    }
    let mut text = joined(&lines);
    if fault == BoundTextFault::NoLastNewline {
        text.pop();
    }
    text
}

/// The line of a sheet.
fn sheet_line(
    fault: BoundTextFault,
    name: &str,
    nodes: usize,
    bytes: usize,
    typed: &str,
) -> String {
    let (shown, length) = (number_with(fault, nodes), number_with(fault, bytes));
    match fault {
        BoundTextFault::NodesForBytes => format!("{name} {length} nodes {shown} bytes"),
        BoundTextFault::EventsForBytes => format!("{name} {shown} nodes 2 events"),
        BoundTextFault::OneNode if nodes == 1 => format!("{name} 1 node {length} bytes"),
        BoundTextFault::NodesAsTyped => format!("{name} {typed} nodes {length} bytes"),
        _ => format!("{name} {shown} nodes {length} bytes"),
    }
}

/// The line of the first failing test.
fn test_line(fault: BoundTextFault, p: usize, q: usize) -> String {
    let test = match fault {
        BoundTextFault::TestProduct => p * q,
        BoundTextFault::TestTwoLess => (p * q).saturating_sub(2),
        BoundTextFault::TestSum => p + q,
        BoundTextFault::TestSumOneLess => p + q - 1,
        BoundTextFault::TestLarger => p.max(q),
        BoundTextFault::TestSquare => p * p - 1,
        BoundTextFault::TestLowByte => (p * q - 1) % 256,
        _ => p * q - 1,
    };
    format!("first failing test {}", number_with(fault, test))
}

/// A number as it is printed.
fn number_with(fault: BoundTextFault, number: usize) -> String {
    match (fault, number) {
        (BoundTextFault::NothingForZero, 0) => String::new(),
        (BoundTextFault::LastTwoDigits, _) => (number % 100).to_string(),
        (BoundTextFault::LastThreeDigits, _) => (number % 1_000).to_string(),
        (BoundTextFault::TwoDigits, _) => format!("{number:02}"),
        (BoundTextFault::NumbersHex, _) => format!("{number:x}"),
        _ => number.to_string(),
    }
}

/// What is written for one of two sheets.
fn sheet_with(fault: BoundTextFault, asked: Asked, (p, q): (u8, u8)) -> Written {
    let (mine, theirs) = sheets_with(call_fault(fault), p, q);
    let first = (asked == Asked::Reference) != (fault == BoundTextFault::SheetsTurned);
    let sheet = match fault {
        BoundTextFault::BothSheets => [mine, theirs].concat(),
        _ if first => mine,
        _ => theirs,
    };
    let bytes = sheet_bytes(fault, &sheet);
    match fault {
        BoundTextFault::SheetSaid => Written::said(bytes),
        BoundTextFault::LinesBeside => Written {
            printed: bytes,
            said: lines_with(fault, (p, q), ("", "")).into(),
        },
        _ => Written::printed(bytes),
    }
}

/// The bytes of a sheet as they are written.
fn sheet_bytes(fault: BoundTextFault, sheet: &[u8]) -> Vec<u8> {
    let mut bytes = sheet.to_vec();
    match fault {
        BoundTextFault::SheetHex => {
            let pairs: String = sheet.iter().map(|byte| format!("{byte:02X} ")).collect();
            bytes = pairs.into();
        }
        BoundTextFault::SheetNewline => bytes.push(b'\n'),
        BoundTextFault::SheetOfList => bytes.resize(256, 0),
        BoundTextFault::SheetWithoutField => bytes = sheet[4..].to_vec(),
        BoundTextFault::SheetOneLess => bytes.truncate(sheet.len() - 1),
        BoundTextFault::SheetFromFirst => {
            let zeros = sheet.iter().take_while(|&&byte| byte == 0).count();
            bytes.drain(..zeros);
        }
        BoundTextFault::SheetLetters => {
            let letters: String = sheet.iter().map(|&byte| char::from(byte)).collect();
            bytes = letters.into();
        }
        BoundTextFault::SheetSevenBits => bytes.iter_mut().for_each(|byte| *byte %= 128),
        BoundTextFault::SheetReturns => {
            let returned = |&byte: &u8| match byte {
                b'\n' => vec![b'\r', b'\n'],
                _ => vec![byte],
            };
            bytes = sheet.iter().flat_map(returned).collect();
        }
        BoundTextFault::SheetLeftOut => bytes.clear(),
        _ => {}
    }
    bytes
}
