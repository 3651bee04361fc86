//! The text of `keypad_check` with a fault planted.

use super::super::faults;
use super::super::keypads::{check_with, find_with, KeypadFault};
use super::{each_line, exchanged, joined, owned, without};
use crate::keypad::{check, find, matching, rules_of, RULE_BYTES};
use crate::text::keypad_check::{asked, lines_by, output, output_by, Asked, Call};
use crate::text::{meaning, MAX_INPUT};

faults! {
    /// One planted fault of the text, or none.
    KeypadTextFault {
        /// One byte less is read.
        OneByteLess,
        /// One byte more is read.
        OneByteMore,
        /// The sheet ends where its length field says, without adding 4.
        SplitWithoutFour,
        /// The table begins where the sheet's length field says, without adding 4.
        TableTooEarly,
        /// Nodes and events are exchanged in the first line.
        HeadExchanged,
        /// The first line calls the sheet the reference.
        HeadOfReference,
        /// The first line is left out.
        HeadLeftOut,
        /// A refused sheet does not say what it means.
        NoMeaning,
        /// A refused sheet has the meaning of the next one.
        NextMeaning,
        /// The table has its line after a refused sheet too.
        TableAfterRefusedSheet,
        /// A table of a wrong length is refused before the sheet.
        TwentyOneBeforeSheet,
        /// A refused table stands alone.
        RefusedTableAlone,
        /// A refused table has the line of its rules too.
        RefusedTableCounted,
        /// A refused table is told as a refused sheet.
        RefusedTableIsSheet,
        /// The number of a refused table is left out.
        RefusedTableWithoutNumber,
        /// One rule is told as `1 rule`.
        OneRule,
        /// The last rule is not counted.
        RulesOneLess,
        /// Bytes are counted in place of rules.
        BytesForRules,
        /// The line of the rules is left out.
        RulesLeftOut,
        /// The line of the rules is left out for a bad table.
        RulesOfGoodOnly,
        /// The line of the rules stands after the answer.
        RulesAfterAnswer,
        /// The word `good` is left out.
        GoodLeftOut,
        /// The word `good` stands in the line of the rules.
        GoodBesideRules,
        /// A gap has no code.
        GapWithoutCode,
        /// A gap is told as an overlap by 0 and 0.
        GapIsOverlap,
        /// An overlap is told as a gap.
        OverlapIsGap,
        /// The two rules of an overlap are exchanged.
        OverlapRulesExchanged,
        /// The code of an overlap and its first rule are exchanged.
        OverlapCodeExchanged,
        /// The second rule of an overlap is left out.
        OverlapWithoutSecond,
        /// The word `and` is left out.
        OverlapWithoutAnd,
        /// A code that just one rule matches has its line in a bad table too.
        CodeInBadTable,
        /// A code has its line with a refused table too.
        CodeWithRefusedTable,
        /// The line of a code has no event.
        CodeWithoutEvent,
        /// The line of a code has no code.
        CodeWithoutCode,
        /// Code and event are exchanged.
        CodeExchanged,
        /// The line of a code is left out.
        CodeLeftOut,
        /// The line of a code stands before `good`.
        CodeBeforeGood,
        /// The line of a code stands in place of `good`.
        CodeForGood,
        /// The line of a code stands alone.
        CodeAlone,
        /// The code is printed as it was typed.
        CodeAsTyped,
        /// Without a word code 0 is asked.
        NoWordIsZero,
        /// The number 0 has no digit.
        NothingForZero,
        /// Of a number of three digits the last two are printed.
        TwoDigits,
        /// The last line has no newline.
        NoLastNewline,
        /// A wrong word is not looked at.
        WrongWordIgnored,
        /// A wrong word counts as 0.
        WrongWordIsZero,
        /// An empty word is not looked at.
        EmptyWordIgnored,
        /// A word of more than 64 bytes is not looked at.
        LongWordIgnored,
        /// A second word is not looked at.
        AnySecondWord,
        /// Two words count as none.
        TwoWordsIgnored,
        /// A number with a leading zero counts as none.
        LeadingZeroRefused,
        /// A number of more than three digits counts as none.
        FourDigitsRefused,
        /// A number of six digits is read.
        SixDigits,
        /// A number of any length is read.
        AnyDigits,
        /// The number 255 counts as none.
        LastCodeRefused,
        /// The number 256 counts as 0.
        OneMoreRead,
        /// A number above 255 loses its high bits.
        CodeWraps,
        /// A number above 255 counts as 255.
        CodeCapped,
        /// A number above 65,535 loses its high bits.
        WordWraps,
        /// A sign before a number is read.
        SignRead,
        /// Blanks around a number are not looked at.
        BlanksTrimmed,
        /// What stands after a number is not looked at.
        TailIgnored,
        /// Wrong words are told in a line of the text.
        WrongUseTold,
        /// Wrong words are told after the refusals of the sheet.
        WrongUseAfterSheet,
        /// Wrong words are told after the refusals of the sheet and of the table.
        WrongUseAfterTable,
        /// The value is compared with the whole code.
        WholeCode,
        /// The bits outside the mask are compared with the value.
        MaskInverted,
        /// Code 0 is not looked at.
        FirstCodeLeftOut,
        /// Code 255 is not looked at.
        LastCodeLeftOut,
        /// The largest bad code is named.
        LargestBad,
        /// A gap is told before a smaller overlap.
        GapFirst,
        /// An overlap is told before a smaller gap.
        OverlapFirst,
        /// The last rule that matches is named for the second.
        LastForSecond,
        /// Rules are counted from 1.
        RulesFromOne,
        /// A part rule is accepted and left out.
        PartRuleLeftOut,
        /// A part rule is accepted and filled with zeros.
        PartRuleFilled,
        /// A table of no rule is accepted.
        NoRuleAccepted,
        /// 65 rules are accepted.
        SixtyFive,
        /// 64 rules are refused.
        SixtyFourRefused,
        /// A value outside its mask is accepted.
        OutsideAccepted,
        /// E is accepted.
        EventEqual,
        /// 23 is looked for before 22.
        TwentyThreeFirst,
        /// 22 and 23 are looked for together, rule by rule.
        RuleByRule,
        /// 21 is looked for after 22 and 23.
        TwentyOneLast,
        /// 23 is given only of a good table.
        EventOfGoodOnly,
        /// The event of the rule after the one that matches is given.
        NextRuleEvent,
        /// The number of the rule is given for its event.
        RuleForEvent,
    }
}

/// The fault of the calls that a fault of the text comes from; no fault comes from none.
fn call_fault(fault: KeypadTextFault) -> Option<KeypadFault> {
    Some(match fault {
        KeypadTextFault::None => KeypadFault::None,
        KeypadTextFault::WholeCode => KeypadFault::WholeCode,
        KeypadTextFault::MaskInverted => KeypadFault::MaskInverted,
        KeypadTextFault::FirstCodeLeftOut => KeypadFault::FirstCodeLeftOut,
        KeypadTextFault::LastCodeLeftOut => KeypadFault::LastCodeLeftOut,
        KeypadTextFault::LargestBad => KeypadFault::LargestBad,
        KeypadTextFault::GapFirst => KeypadFault::GapFirst,
        KeypadTextFault::OverlapFirst => KeypadFault::OverlapFirst,
        KeypadTextFault::LastForSecond => KeypadFault::LastForSecond,
        KeypadTextFault::RulesFromOne => KeypadFault::RulesFromOne,
        KeypadTextFault::PartRuleLeftOut => KeypadFault::PartRuleLeftOut,
        KeypadTextFault::PartRuleFilled => KeypadFault::PartRuleFilled,
        KeypadTextFault::NoRuleAccepted => KeypadFault::NoRuleAccepted,
        KeypadTextFault::SixtyFive => KeypadFault::SixtyFive,
        KeypadTextFault::SixtyFourRefused => KeypadFault::SixtyFourRefused,
        KeypadTextFault::OutsideAccepted => KeypadFault::OutsideAccepted,
        KeypadTextFault::EventEqual => KeypadFault::EventEqual,
        KeypadTextFault::TwentyThreeFirst => KeypadFault::TwentyThreeFirst,
        KeypadTextFault::RuleByRule => KeypadFault::RuleByRule,
        KeypadTextFault::TwentyOneLast => KeypadFault::TwentyOneLast,
        KeypadTextFault::EventOfGoodOnly => KeypadFault::EventOfGoodOnly,
        KeypadTextFault::NextRuleEvent => KeypadFault::NextRuleEvent,
        KeypadTextFault::RuleForEvent => KeypadFault::RuleForEvent,
        _ => return None,
    })
}

/// The output of a call.
pub fn output_with(fault: KeypadTextFault, call: &Call) -> String {
    if let Some(other) = call_fault(fault) {
        return output_by(
            call,
            &move |sheet, table| check_with(other, sheet, table),
            &move |sheet, table, code| find_with(other, sheet, table, code),
        );
    }
    let heard = Call {
        words: words_with(fault, &call.words),
        input: call.input.clone(),
    };
    let plain = output(&heard);
    match fault {
        KeypadTextFault::OneByteLess => read_with(MAX_INPUT - 1, call),
        KeypadTextFault::OneByteMore => read_with(MAX_INPUT + 1, call),
        KeypadTextFault::SplitWithoutFour | KeypadTextFault::TableTooEarly => {
            shifted(fault, call, plain)
        }
        KeypadTextFault::WrongUseTold
        | KeypadTextFault::WrongUseAfterSheet
        | KeypadTextFault::WrongUseAfterTable => told_with(fault, call, plain),
        _ => lines_with(fault, call, &plain),
    }
}

/// The output where another number of bytes is read at most.
fn read_with(most: usize, call: &Call) -> String {
    let input = &call.input[..call.input.len().min(most)];
    lines_by(input, asked(&call.words), &check, &find)
}

/// What the length field of the sheet says, if the sheet ends inside what is read.
fn field(input: &[u8]) -> Option<usize> {
    let field = u32::from_be_bytes(*input.first_chunk::<4>()?) as usize;
    (field + 4 <= input.len().min(MAX_INPUT)).then_some(field)
}

/// The table of an input; none if there is no end of the sheet.
fn table_of(input: &[u8]) -> Option<&[u8]> {
    Some(&input[field(input)? + 4..input.len().min(MAX_INPUT)])
}

/// The output where the split comes 4 bytes too early. A sheet cut so is refused; a table that
/// begins so has a length that is refused.
fn shifted(fault: KeypadTextFault, call: &Call, plain: String) -> String {
    match field(&call.input) {
        None => plain,
        Some(_) if plain.is_empty() => plain,
        Some(_) if fault == KeypadTextFault::SplitWithoutFour => {
            format!("sheet refused 1 {}\n", meaning(1))
        }
        Some(field) => {
            let end = call.input.len().min(MAX_INPUT);
            let input = [&call.input[..field + 4], &call.input[field..end]].concat();
            lines_by(&input, asked(&call.words), &check, &find)
        }
    }
}

/// The output where wrong words are told otherwise.
fn told_with(fault: KeypadTextFault, call: &Call, plain: String) -> String {
    if asked(&call.words) != Asked::Wrong {
        return plain;
    }
    let right = Call {
        words: Vec::new(),
        ..call.clone()
    };
    let text = output(&right);
    let refused = text.starts_with("sheet refused")
        || fault == KeypadTextFault::WrongUseAfterTable && text.contains("\ntable refused");
    match fault {
        KeypadTextFault::WrongUseTold => "code refused\n".to_string(),
        _ if refused => text,
        _ => plain,
    }
}

/// The words that are heard in place of some words.
fn words_with(fault: KeypadTextFault, words: &[String]) -> Vec<String> {
    match (fault, words) {
        (KeypadTextFault::NoWordIsZero, []) => vec!["0".to_string()],
        (KeypadTextFault::AnySecondWord, [word, _]) => vec![word.clone()],
        (KeypadTextFault::TwoWordsIgnored, [_, _]) => Vec::new(),
        (KeypadTextFault::EmptyWordIgnored, [word]) if word.is_empty() => Vec::new(),
        (KeypadTextFault::LongWordIgnored, [word]) if word.len() > 64 => Vec::new(),
        (KeypadTextFault::WrongWordIgnored, [_]) if asked(words) == Asked::Wrong => Vec::new(),
        (KeypadTextFault::WrongWordIsZero, [_]) if asked(words) == Asked::Wrong => {
            vec!["0".to_string()]
        }
        (_, [word]) => vec![word_with(fault, word)],
        _ => words.to_vec(),
    }
}

/// The word that is heard in place of a word.
fn word_with(fault: KeypadTextFault, word: &str) -> String {
    let digits = word.bytes().all(|byte| byte.is_ascii_digit());
    let number: Option<u64> = word.parse().ok().filter(|_| digits);
    let none = String::new();
    match (fault, number, word.len()) {
        (KeypadTextFault::LeadingZeroRefused, _, 2..) if word.starts_with('0') => none,
        (KeypadTextFault::FourDigitsRefused, Some(_), 4..) => none,
        (KeypadTextFault::SixDigits, Some(number), 6) => number.to_string(),
        (KeypadTextFault::AnyDigits, Some(number), _) => number.to_string(),
        (KeypadTextFault::LastCodeRefused, Some(255), _) => none,
        (KeypadTextFault::OneMoreRead, Some(256), ..=5) => "0".to_string(),
        (KeypadTextFault::CodeWraps, Some(number @ ..65_536), ..=5) => (number % 256).to_string(),
        (KeypadTextFault::CodeCapped, Some(256..65_536), ..=5) => "255".to_string(),
        (KeypadTextFault::WordWraps, Some(number), ..=5) => (number % 65_536).to_string(),
        (KeypadTextFault::SignRead, _, _) => word.trim_start_matches(['+', '-']).to_string(),
        (KeypadTextFault::BlanksTrimmed, _, _) => word.trim().to_string(),
        (KeypadTextFault::TailIgnored, _, _) => {
            let end = word.find(|letter: char| !letter.is_ascii_digit());
            word[..end.unwrap_or(word.len())].to_string()
        }
        _ => word.to_string(),
    }
}

/// The output with a fault in its lines.
fn lines_with(fault: KeypadTextFault, call: &Call, plain: &str) -> String {
    let lines: Vec<&str> = plain.lines().collect();
    match fault {
        KeypadTextFault::HeadExchanged => exchanged(plain),
        KeypadTextFault::HeadOfReference => each_line(plain, |line| {
            match (line.strip_prefix("sheet "), line.ends_with("events")) {
                (Some(rest), true) => format!("reference {rest}"),
                _ => line.to_string(),
            }
        }),
        KeypadTextFault::HeadLeftOut => without(plain, |line| line.ends_with(" events")),
        KeypadTextFault::NoMeaning | KeypadTextFault::NextMeaning => other_meaning(fault, plain),
        KeypadTextFault::TableAfterRefusedSheet if plain.starts_with("sheet refused") => {
            let table = table_of(&call.input).unwrap_or(&[]);
            format!("{plain}table {} rules\n", table.len() / RULE_BYTES)
        }
        KeypadTextFault::TwentyOneBeforeSheet if plain.starts_with("sheet refused") => {
            match table_of(&call.input).and_then(rules_of) {
                Some(_) => plain.to_string(),
                None => "table refused 21\n".to_string(),
            }
        }
        KeypadTextFault::GoodLeftOut => without(plain, |line| line == "good"),
        KeypadTextFault::GoodBesideRules => plain.replace(" rules\ngood\n", " rules good\n"),
        KeypadTextFault::NothingForZero => each_line(plain, |line| {
            let words = line.split(' ').filter(|&word| word != "0");
            words.collect::<Vec<_>>().join(" ")
        }),
        KeypadTextFault::TwoDigits => numbers(plain, |number| number % 100),
        KeypadTextFault::NoLastNewline => plain.trim_end_matches('\n').to_string(),
        _ if lines.len() >= 2 && lines[1].starts_with("table refused") => {
            refused_with(fault, call, &lines)
        }
        _ if lines.len() >= 3 => table_with(fault, call, &lines),
        _ => plain.to_string(),
    }
}

/// The output of a refused table with a fault in its lines.
fn refused_with(fault: KeypadTextFault, call: &Call, lines: &[&str]) -> String {
    let table = table_of(&call.input).unwrap_or(&[]);
    let mut lines = owned(lines);
    match fault {
        KeypadTextFault::RefusedTableAlone => {
            lines.remove(0);
        }
        KeypadTextFault::RefusedTableCounted => {
            lines.insert(1, format!("table {} rules", table.len() / RULE_BYTES));
        }
        KeypadTextFault::RefusedTableIsSheet => {
            lines[1] = lines[1].replace("table", "sheet");
        }
        KeypadTextFault::RefusedTableWithoutNumber => {
            lines[1] = "table refused".to_string();
        }
        KeypadTextFault::CodeWithRefusedTable => {
            if let Asked::Code(code) = asked(&call.words) {
                lines.push(format!("code {code} event 0"));
            }
        }
        _ => {}
    }
    joined(&lines)
}

/// The output of a table that is not refused with a fault in its lines: the sheet, the rules, the
/// answer, and at times a code.
fn table_with(fault: KeypadTextFault, call: &Call, lines: &[&str]) -> String {
    let mut lines = owned(lines);
    let words: Vec<String> = lines[2].split(' ').map(String::from).collect();
    let good = words[0] == "good";
    let looked: Option<(String, String)> = lines.get(3).map(|line| {
        let words: Vec<&str> = line.split(' ').collect();
        (words[1].to_string(), words[3].to_string())
    });
    match fault {
        KeypadTextFault::OneRule => lines[1] = lines[1].replace("table 1 rules", "table 1 rule"),
        KeypadTextFault::RulesOneLess => lines[1] = numbers(&lines[1], |count| count - 1),
        KeypadTextFault::BytesForRules => lines[1] = numbers(&lines[1], |count| 3 * count),
        KeypadTextFault::RulesLeftOut => {
            lines.remove(1);
        }
        KeypadTextFault::RulesOfGoodOnly if !good => {
            lines.remove(1);
        }
        KeypadTextFault::RulesAfterAnswer => lines.swap(1, 2),
        KeypadTextFault::GapWithoutCode if words[0] == "gap" => lines[2] = "gap".to_string(),
        KeypadTextFault::GapIsOverlap if words[0] == "gap" => {
            lines[2] = format!("overlap {} by 0 and 0", words[1]);
        }
        KeypadTextFault::CodeInBadTable if !good => lines.extend(lone_line(call)),
        _ => {}
    }
    if let [_, code, _, first, _, second] = &words[..] {
        match fault {
            KeypadTextFault::OverlapIsGap => lines[2] = format!("gap {code}"),
            KeypadTextFault::OverlapRulesExchanged => {
                lines[2] = format!("overlap {code} by {second} and {first}");
            }
            KeypadTextFault::OverlapCodeExchanged => {
                lines[2] = format!("overlap {first} by {code} and {second}");
            }
            KeypadTextFault::OverlapWithoutSecond => {
                lines[2] = format!("overlap {code} by {first}");
            }
            KeypadTextFault::OverlapWithoutAnd => {
                lines[2] = format!("overlap {code} by {first} {second}");
            }
            _ => {}
        }
    }
    if let Some((code, event)) = looked {
        match fault {
            KeypadTextFault::CodeWithoutEvent => lines[3] = format!("code {code}"),
            KeypadTextFault::CodeWithoutCode => lines[3] = format!("event {event}"),
            KeypadTextFault::CodeExchanged => lines[3] = format!("code {event} event {code}"),
            KeypadTextFault::CodeLeftOut => lines.truncate(3),
            KeypadTextFault::CodeBeforeGood => lines.swap(2, 3),
            KeypadTextFault::CodeForGood => {
                lines.remove(2);
            }
            KeypadTextFault::CodeAlone => lines = lines.split_off(3),
            KeypadTextFault::CodeAsTyped => {
                lines[3] = format!("code {} event {event}", call.words[0]);
            }
            _ => {}
        }
    }
    joined(&lines)
}

/// The line of a code in a bad table, if just one rule matches it.
fn lone_line(call: &Call) -> Option<String> {
    let Asked::Code(code) = asked(&call.words) else {
        return None;
    };
    let rules = rules_of(table_of(&call.input)?)?;
    match matching(&rules, code)[..] {
        [rule] => Some(format!("code {code} event {}", rules[rule].event)),
        _ => None,
    }
}

/// A text in which a refused sheet has no meaning, or that of the next refusal.
fn other_meaning(fault: KeypadTextFault, plain: &str) -> String {
    let Some(rest) = plain.strip_prefix("sheet refused ") else {
        return plain.to_string();
    };
    let word = rest.split(' ').next().unwrap_or("");
    match fault {
        KeypadTextFault::NoMeaning => format!("sheet refused {word}\n"),
        _ => {
            let number: u8 = word.parse().unwrap_or(0);
            format!("sheet refused {word} {}\n", meaning(number % 8 + 1))
        }
    }
}

/// A text with another number in place of each.
fn numbers(text: &str, other: impl Fn(u64) -> u64) -> String {
    let word = |word: &str| match word.parse() {
        Ok(number) => other(number).to_string(),
        Err(_) => word.to_string(),
    };
    let line = |line: &str| line.split(' ').map(word).collect::<Vec<_>>().join(" ");
    text.split('\n').map(line).collect::<Vec<_>>().join("\n")
}
