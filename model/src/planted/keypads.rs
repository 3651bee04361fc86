//! The check of a rule table and the lookup with a fault planted or none.

use super::faults;
use crate::keypad::{Bad, Checked, Looked, Rule, MAX_RULES, RULE_BYTES};
use crate::numbers::{checked, looked, Found, Keypad, EVENT, GAP, GOOD, OVERLAP};
use crate::sheet::{check, Sheet, MAX_EVENTS};

faults! {
    /// One planted fault of a check or of a lookup, or none.
    KeypadFault {
        /// A rule is its event, its mask and its value.
        EventFirst,
        /// All masks stand first, then all values, then all events.
        ByColumns,
        /// Mask and value of a rule are exchanged.
        ValueFirst,
        /// The bits outside the mask are compared with the value.
        MaskInverted,
        /// A bit of the mask says that the bit does not count.
        MaskFrees,
        /// The value is compared with the whole code.
        WholeCode,
        /// A code matches if it has all bits of the value.
        BitsIncluded,
        /// The highest bit of a code is not looked at.
        SevenBits,
        /// The first rule is not looked at.
        FirstRuleLeftOut,
        /// The last rule is not looked at.
        LastRuleLeftOut,
        /// Only the first 32 rules are looked at.
        ThirtyTwoRules,
        /// Code 0 is not looked at.
        FirstCodeLeftOut,
        /// Code 255 is not looked at.
        LastCodeLeftOut,
        /// Codes from 128 on are not looked at.
        HalfTheCodes,
        /// The largest bad code is named.
        LargestBad,
        /// A gap is told before a smaller overlap.
        GapFirst,
        /// An overlap is told before a smaller gap.
        OverlapFirst,
        /// The two lowest rules that overlap anywhere are named, with their smallest common code.
        RulesBeforeCodes,
        /// Gaps are not looked for.
        GapsIgnored,
        /// Overlaps are not looked for.
        OverlapsIgnored,
        /// A table is good if the sizes of its rules sum to 256.
        SizesAlone,
        /// Rules with the same event do not overlap.
        SameEventAgrees,
        /// A rule that stands there again does not overlap.
        TwinsAgree,
        /// An odd number of rules at a code is good.
        OddIsGood,
        /// Only three rules at a code overlap.
        TwoAreGood,
        /// The last rule that matches is named for the second.
        LastForSecond,
        /// The two highest rules that match are named.
        HighestTwo,
        /// The rule after the first is named for the second.
        NextForSecond,
        /// The two rules are exchanged.
        RulesExchanged,
        /// Rules are counted from 1.
        RulesFromOne,
        /// Codes are counted from 1.
        CodesFromOne,
        /// A gap is told as an overlap with the rules 0 and 0.
        GapIsOverlap,
        /// An overlap is told as a gap.
        OverlapIsGap,
        /// The kinds of gap and overlap are exchanged.
        KindsExchanged,
        /// A gap has 255 for the rules that it has not.
        GapNamesRules,
        /// 21: a part rule is accepted and left out.
        PartRuleLeftOut,
        /// 21: a part rule is accepted and filled with zeros.
        PartRuleFilled,
        /// 21: a table of no rule is accepted.
        NoRuleAccepted,
        /// 21: 65 rules are accepted.
        SixtyFive,
        /// 21: 64 rules are refused.
        SixtyFourRefused,
        /// 21: only the low byte of the number of bytes is looked at.
        LengthLowByte,
        /// 21: only the low 16 bits of the number of bytes are looked at.
        LengthLowWord,
        /// 21: only the low byte of the number of rules is looked at.
        RulesLowByte,
        /// 22: a value outside its mask is accepted.
        OutsideAccepted,
        /// 22: of a value outside its mask the bits inside count.
        OutsideCut,
        /// 22: a bit of the mask outside the value is refused.
        OutsideTurned,
        /// 22: only the first rule is looked at.
        OutsideFirstOnly,
        /// 22: the last rule is not looked at.
        OutsideLastIgnored,
        /// 23: E is accepted.
        EventEqual,
        /// 23: E - 1 is refused.
        EventOneLess,
        /// 23: every event below 12 is accepted.
        EventBelowTwelve,
        /// 23: every event is accepted.
        EventAccepted,
        /// 23: only the first rule is looked at.
        EventFirstOnly,
        /// 23: the last rule is not looked at.
        EventLastIgnored,
        /// 23 is given only where a lookup comes to such an event.
        EventWhereUsed,
        /// 23 is given only of a good table.
        EventOfGoodOnly,
        /// 23 is looked for before 22.
        TwentyThreeFirst,
        /// 22 and 23 are looked for together, rule by rule.
        RuleByRule,
        /// 21 is looked for after 22 and 23.
        TwentyOneLast,
        /// 21 is looked for before the sheet.
        TwentyOneFirst,
        /// The table is looked at before the sheet.
        TableFirst,
        /// The sheet is not checked.
        SheetIgnored,
        /// Of the sheet only E and N are checked.
        SheetRangesOnly,
        /// A refusal tells kind 31 too.
        RefusedIsGood,
        /// A lookup looks at the asked code alone.
        AskedAlone,
        /// A lookup looks at the codes up to the asked one.
        AskedUpTo,
        /// A lookup gives the event of the first rule that matches, and tells gaps alone.
        AskedFirstMatch,
        /// A lookup in a bad table names the asked code.
        AskedNamed,
        /// A lookup looks up the low seven bits of a code.
        AskedSevenBits,
        /// A lookup gives the event of the rule after the one that matches.
        NextRuleEvent,
        /// A lookup gives the number of the rule.
        RuleForEvent,
        /// A lookup gives the low byte of the event's catalogue code.
        CatalogueCode,
        /// A lookup that gives an event has the kind of a good table.
        EventIsGood,
        /// A lookup that gives an event names the asked code too.
        EventWithCode,
        /// A lookup in a bad table gives the event of the first rule that matches too.
        BadWithEvent,
    }
}

impl KeypadFault {
    /// Whether the fault can show in a check.
    pub fn in_check(self) -> bool {
        use KeypadFault::*;
        !matches!(
            self,
            AskedAlone
                | AskedUpTo
                | AskedFirstMatch
                | AskedNamed
                | AskedSevenBits
                | NextRuleEvent
                | RuleForEvent
                | CatalogueCode
                | EventIsGood
                | EventWithCode
                | BadWithEvent
        )
    }
}

/// The check of a table, in numbers.
pub fn keypad_numbers_with(fault: KeypadFault, sheet: &Sheet, table: &[u8]) -> Keypad {
    let mut answer = checked(check_with(fault, sheet, table));
    match (fault, answer.kind) {
        (KeypadFault::KindsExchanged, GAP) => answer.kind = OVERLAP,
        (KeypadFault::KindsExchanged, OVERLAP) => answer.kind = GAP,
        (KeypadFault::GapNamesRules, GAP) => (answer.first, answer.second) = (255, 255),
        (KeypadFault::RefusedIsGood, 0) => answer.kind = GOOD,
        _ => {}
    }
    answer
}

/// The lookup, in numbers.
pub fn find_numbers_with(fault: KeypadFault, sheet: &Sheet, table: &[u8], code: u8) -> Found {
    let mut answer = looked(find_with(fault, sheet, table, code));
    match (fault, answer.kind) {
        (KeypadFault::KindsExchanged, GAP) => answer.kind = OVERLAP,
        (KeypadFault::KindsExchanged, OVERLAP) => answer.kind = GAP,
        (KeypadFault::GapNamesRules, GAP) => (answer.first, answer.second) = (255, 255),
        (KeypadFault::RefusedIsGood, 0) => answer.kind = GOOD,
        (KeypadFault::EventIsGood, EVENT) => answer.kind = GOOD,
        (KeypadFault::EventWithCode, EVENT) => answer.code = code,
        (KeypadFault::BadWithEvent, GAP | OVERLAP) => {
            let rules = rules_with(fault, table);
            let first = matching(fault, &rules, code).first().copied();
            answer.event = first.map_or(0, |rule| rules[rule].event);
        }
        _ => {}
    }
    answer
}

/// The check of a table.
pub fn check_with(fault: KeypadFault, sheet: &Sheet, table: &[u8]) -> Result<Checked, u8> {
    let rules = admit(fault, sheet, table)?;
    match told(fault, &rules, None) {
        Some(bad) => Ok(Checked::Bad(bad)),
        None if fault == KeypadFault::EventOfGoodOnly && has_no_event(fault, sheet, &rules) => {
            Err(23)
        }
        None => Ok(Checked::Good),
    }
}

/// The lookup.
pub fn find_with(fault: KeypadFault, sheet: &Sheet, table: &[u8], code: u8) -> Result<Looked, u8> {
    let rules = admit(fault, sheet, table)?;
    if let Some(bad) = told(fault, &rules, Some(code)) {
        return Ok(Looked::Bad(bad));
    }
    if fault == KeypadFault::EventOfGoodOnly && has_no_event(fault, sheet, &rules) {
        return Err(23);
    }
    let code = match fault {
        KeypadFault::AskedSevenBits => code & 127,
        _ => code,
    };
    let Some(rule) = matching(fault, &rules, code).first().copied() else {
        return Ok(Looked::Bad(Bad::Gap { code }));
    };
    let event = rules[rule].event;
    let used = usize::from(event).min(MAX_EVENTS - 1);
    Ok(Looked::Event(match fault {
        KeypadFault::EventWhereUsed if event >= sheet.e => return Err(23),
        KeypadFault::NextRuleEvent => rules[(rule + 1) % rules.len()].event,
        KeypadFault::RuleForEvent => rule as u8,
        KeypadFault::CatalogueCode => sheet.codes[used] as u8,
        _ => event,
    }))
}

/// The rules of a table, whole ones only, of any number.
fn rules_with(fault: KeypadFault, table: &[u8]) -> Vec<Rule> {
    let length = match fault {
        KeypadFault::LengthLowByte => table.len() % (1 << 8),
        KeypadFault::LengthLowWord => table.len() % (1 << 16),
        KeypadFault::RulesLowByte => table.len() % (RULE_BYTES << 8),
        _ => table.len(),
    };
    let mut bytes = table[..length].to_vec();
    if fault == KeypadFault::PartRuleFilled {
        bytes.resize(length.next_multiple_of(RULE_BYTES), 0);
    }
    let count = bytes.len() / RULE_BYTES;
    let rule = |i: usize| match fault {
        KeypadFault::ByColumns => [bytes[i], bytes[count + i], bytes[2 * count + i]],
        KeypadFault::EventFirst => [bytes[3 * i + 1], bytes[3 * i + 2], bytes[3 * i]],
        KeypadFault::ValueFirst => [bytes[3 * i + 1], bytes[3 * i], bytes[3 * i + 2]],
        _ => [bytes[3 * i], bytes[3 * i + 1], bytes[3 * i + 2]],
    };
    let mut rules: Vec<Rule> = (0..count).map(|i| Rule::of(&rule(i))).collect();
    if fault == KeypadFault::OutsideCut {
        rules.iter_mut().for_each(|rule| rule.value &= rule.mask);
    }
    rules
}

/// The checks: the sheet, 21, 22, 23.
fn admit(fault: KeypadFault, sheet: &Sheet, table: &[u8]) -> Result<Vec<Rule>, u8> {
    let rules = rules_with(fault, table);
    let own = match (fault, check(sheet)) {
        (KeypadFault::SheetIgnored, _) => 0,
        (KeypadFault::SheetRangesOnly, number) if number != 3 => 0,
        (_, number) => number,
    };
    let test = |bad: bool, number: u8| if bad { number } else { 0 };
    let size = test(!size_fits(fault, table, &rules), 21);
    let outside = test(has_outside(fault, &rules), 22);
    let late = matches!(
        fault,
        KeypadFault::EventWhereUsed | KeypadFault::EventOfGoodOnly
    );
    let event = test(!late && has_no_event(fault, sheet, &rules), 23);
    let order = match fault {
        KeypadFault::TwentyThreeFirst => [own, size, event, outside],
        KeypadFault::RuleByRule => [own, size, first_wrong(sheet, &rules), 0],
        KeypadFault::TwentyOneLast => [own, outside, event, size],
        KeypadFault::TwentyOneFirst => [size, own, outside, event],
        KeypadFault::TableFirst => [size, outside, event, own],
        _ => [own, size, outside, event],
    };
    match order.into_iter().find(|&number| number != 0) {
        Some(number) => Err(number),
        None => Ok(rules),
    }
}

/// 21: whether a table has 1 to 64 rules and no part of another.
fn size_fits(fault: KeypadFault, table: &[u8], rules: &[Rule]) -> bool {
    let least = usize::from(fault != KeypadFault::NoRuleAccepted);
    let most = match fault {
        KeypadFault::SixtyFive => MAX_RULES + 1,
        KeypadFault::SixtyFourRefused => MAX_RULES - 1,
        _ => MAX_RULES,
    };
    let part = match fault {
        KeypadFault::PartRuleLeftOut | KeypadFault::PartRuleFilled => 0,
        KeypadFault::LengthLowByte => table.len() % (1 << 8) % RULE_BYTES,
        KeypadFault::LengthLowWord => table.len() % (1 << 16) % RULE_BYTES,
        _ => table.len() % RULE_BYTES,
    };
    part == 0 && (least..=most).contains(&rules.len())
}

/// 22: whether the value of some rule has a bit outside its mask.
fn has_outside(fault: KeypadFault, rules: &[Rule]) -> bool {
    let outside = |rule: &Rule| match fault {
        KeypadFault::OutsideAccepted => false,
        KeypadFault::OutsideTurned => rule.mask & !rule.value != 0,
        _ => rule.value & !rule.mask != 0,
    };
    let count = match fault {
        KeypadFault::OutsideFirstOnly => 1,
        KeypadFault::OutsideLastIgnored => rules.len().saturating_sub(1),
        _ => rules.len(),
    };
    rules.iter().take(count).any(outside)
}

/// 23: whether the event of some rule is not below E.
fn has_no_event(fault: KeypadFault, sheet: &Sheet, rules: &[Rule]) -> bool {
    let e = sheet.e;
    let wrong = |rule: &Rule| match fault {
        KeypadFault::EventEqual => rule.event > e,
        KeypadFault::EventOneLess => rule.event.saturating_add(1) >= e,
        KeypadFault::EventBelowTwelve => usize::from(rule.event) >= MAX_EVENTS,
        KeypadFault::EventAccepted => false,
        _ => rule.event >= e,
    };
    let count = match fault {
        KeypadFault::EventFirstOnly => 1,
        KeypadFault::EventLastIgnored => rules.len().saturating_sub(1),
        _ => rules.len(),
    };
    rules.iter().take(count).any(wrong)
}

/// 22 or 23 of the first rule that has one of them; 0 if none has.
fn first_wrong(sheet: &Sheet, rules: &[Rule]) -> u8 {
    let number = |rule: &Rule| match rule.event >= sheet.e {
        _ if rule.is_outside() => 22,
        true => 23,
        false => 0,
    };
    let mut numbers = rules.iter().map(number);
    numbers.find(|&number| number != 0).unwrap_or(0)
}

/// Whether a rule matches a code.
fn matches(fault: KeypadFault, rule: &Rule, code: u8) -> bool {
    let Rule { mask, value, .. } = *rule;
    match fault {
        KeypadFault::MaskInverted => code & !mask == value,
        KeypadFault::MaskFrees => code | mask == value | mask,
        KeypadFault::WholeCode => code == value,
        KeypadFault::BitsIncluded => code & value == value,
        KeypadFault::SevenBits => (code ^ value) & mask & 127 == 0,
        _ => code & mask == value,
    }
}

/// The rules that match a code, as they count.
fn matching(fault: KeypadFault, rules: &[Rule], code: u8) -> Vec<usize> {
    let looked_at = |rule: &usize| match fault {
        KeypadFault::FirstRuleLeftOut => *rule > 0,
        KeypadFault::LastRuleLeftOut => *rule + 1 < rules.len(),
        KeypadFault::ThirtyTwoRules => *rule < 32,
        _ => true,
    };
    let agree = |one: Rule, other: Rule| match fault {
        KeypadFault::SameEventAgrees => one.event == other.event,
        KeypadFault::TwinsAgree => (one.mask, one.value) == (other.mask, other.value),
        _ => false,
    };
    let mut found: Vec<usize> = Vec::new();
    for rule in (0..rules.len()).filter(looked_at) {
        let known = found.iter().any(|&old| agree(rules[old], rules[rule]));
        if matches(fault, &rules[rule], code) && !known {
            found.push(rule);
        }
    }
    let single = match fault {
        KeypadFault::OddIsGood => found.len() % 2 == 1,
        KeypadFault::TwoAreGood => found.len() == 2,
        _ => false,
    };
    if single {
        found.truncate(1);
    }
    found
}

/// What is wrong at a code.
fn bad_at(fault: KeypadFault, rules: &[Rule], code: u8) -> Option<Bad> {
    let found = matching(fault, rules, code);
    let (first, second) = match found[..] {
        [] if fault == KeypadFault::GapsIgnored => return None,
        [] => return Some(Bad::Gap { code }),
        [_] => return None,
        _ if fault == KeypadFault::OverlapsIgnored => return None,
        [first, second, ..] => (first as u8, second as u8),
    };
    let last = found[found.len() - 1] as u8;
    let before = found[found.len() - 2] as u8;
    let (first, second) = match fault {
        KeypadFault::LastForSecond => (first, last),
        KeypadFault::HighestTwo => (before, last),
        KeypadFault::NextForSecond => (first, first + 1),
        KeypadFault::RulesExchanged => (second, first),
        KeypadFault::RulesFromOne => (first + 1, second + 1),
        _ => (first, second),
    };
    Some(Bad::Overlap {
        code,
        first,
        second,
    })
}

/// What is told of a table, for a lookup with the code that is asked.
fn told(fault: KeypadFault, rules: &[Rule], asked: Option<u8>) -> Option<Bad> {
    let bad = smallest(fault, rules, asked)?;
    let named = |code: u8| match (fault, asked) {
        (KeypadFault::CodesFromOne, _) => code.wrapping_add(1),
        (KeypadFault::AskedNamed, Some(asked)) => asked,
        _ => code,
    };
    Some(match bad {
        Bad::Gap { code } if fault == KeypadFault::GapIsOverlap => Bad::Overlap {
            code,
            first: 0,
            second: 0,
        },
        Bad::Gap { code } => Bad::Gap { code: named(code) },
        Bad::Overlap { code, .. } if fault == KeypadFault::OverlapIsGap => Bad::Gap { code },
        Bad::Overlap {
            code,
            first,
            second,
        } => Bad::Overlap {
            code: named(code),
            first,
            second,
        },
    })
}

/// What is wrong at the code that counts, if something is.
fn smallest(fault: KeypadFault, rules: &[Rule], asked: Option<u8>) -> Option<Bad> {
    let all: Vec<Bad> = (0..=u8::MAX)
        .filter_map(|code| bad_at(fault, rules, code))
        .collect();
    let code_of = |bad: &Bad| match *bad {
        Bad::Gap { code } | Bad::Overlap { code, .. } => code,
    };
    let is_gap = |bad: &Bad| matches!(bad, Bad::Gap { .. });
    let first = |wanted: &dyn Fn(&Bad) -> bool| all.iter().find(|&bad| wanted(bad)).copied();
    let least = first(&|_| true);
    match (fault, asked) {
        (KeypadFault::FirstCodeLeftOut, _) => first(&|bad| code_of(bad) > 0),
        (KeypadFault::LastCodeLeftOut, _) => first(&|bad| code_of(bad) < u8::MAX),
        (KeypadFault::HalfTheCodes, _) => first(&|bad| code_of(bad) < 128),
        (KeypadFault::LargestBad, _) => all.last().copied(),
        (KeypadFault::GapFirst, _) => first(&is_gap).or(least),
        (KeypadFault::OverlapFirst, _) => first(&|bad| !is_gap(bad)).or(least),
        (KeypadFault::RulesBeforeCodes, _) => lowest_pair(rules).or(least),
        (KeypadFault::SizesAlone, _) if sizes(rules) == 256 => None,
        (KeypadFault::AskedAlone, Some(asked)) => first(&|bad| code_of(bad) == asked),
        (KeypadFault::AskedUpTo, Some(asked)) => first(&|bad| code_of(bad) <= asked),
        (KeypadFault::AskedFirstMatch, Some(asked)) => {
            first(&|bad| code_of(bad) == asked && is_gap(bad))
        }
        _ => least,
    }
}

/// The two lowest rules that overlap anywhere, with their smallest common code, which has the bits
/// of both values and no other.
fn lowest_pair(rules: &[Rule]) -> Option<Bad> {
    let pairs = (0..rules.len()).flat_map(|i| (i + 1..rules.len()).map(move |k| (i, k)));
    let mut common = pairs.filter(|&(i, k)| {
        let (one, other) = (rules[i], rules[k]);
        (one.value ^ other.value) & one.mask & other.mask == 0
    });
    common.next().map(|(i, k)| Bad::Overlap {
        code: rules[i].value | rules[k].value,
        first: i as u8,
        second: k as u8,
    })
}

/// How many codes the rules match, each counted for itself.
fn sizes(rules: &[Rule]) -> usize {
    let size = |rule: &Rule| 1 << rule.mask.count_zeros();
    rules.iter().map(size).sum()
}
