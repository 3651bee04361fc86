//! Random rule tables of keypads, codes that are asked, and calls of the program that checks tables.
//! Each table is for a sheet of `e` events, 1 to 12.

use super::codes::{spelled, two_places};
use super::damage::{damaged, damaged_twice, AIMS_READ};
use super::input::program_input;
use super::raw::random_sheet;
use super::Rng;
use crate::keypad::{rules_of, smallest_bad, table_of, Bad, Rule, MAX_RULES, RULE_BYTES};
use crate::sheet::MAX_EVENTS;
use crate::text::keypad_check::Call;
use crate::text::MAX_INPUT;

/// A table of any kind, refused ones among them.
pub fn rule_table(rng: &mut Rng, e: u8) -> Vec<u8> {
    let aim = rng.next_u64();
    match rng.below(8) {
        0 | 1 => {
            let count = rule_count(rng);
            table_of(&good_rules(rng, e, count))
        }
        2 => table_of(&changed_rules(rng, e)),
        3 | 4 => table_of(&bad_rules(rng, e, aim)),
        5 => table_of(&any_rules(rng, e)),
        6 => table_of(&refused_rules(rng, e, aim)),
        _ => wrong_length(rng, e, aim),
    }
}

/// How many rules a table has: 1 to 64, at times few or the most.
pub fn rule_count(rng: &mut Rng) -> usize {
    match rng.below(4) {
        0 => rng.range(1, 4),
        1 => rng.range(MAX_RULES - 1, MAX_RULES),
        _ => rng.range(1, MAX_RULES),
    }
}

/// A code to look up in a table: the smallest bad one, one beside it, the first, the last, or any.
pub fn asked_code(rng: &mut Rng, table: &[u8]) -> u8 {
    let bad = rules_of(table).and_then(|rules| smallest_bad(&rules));
    let at = match bad {
        Some(Bad::Gap { code } | Bad::Overlap { code, .. }) => code,
        None => rng.byte(),
    };
    match rng.below(6) {
        0 => at,
        1 => at.saturating_sub(1),
        2 => at.saturating_add(1),
        3 => rng.pick(&[0, u8::MAX]),
        _ => rng.byte(),
    }
}

/// A good table of `count` rules: the rule of all codes is split at random bits. What is split is
/// any rule, or one of those with most codes, or, as long as that can be, the one of some code.
pub fn good_rules(rng: &mut Rng, e: u8, count: usize) -> Vec<Rule> {
    let mut rules = vec![rule_of(rng, e, 0, 0)];
    let way = rng.below(3);
    let code = rng.pick(&[0, 1, 127, 128, 254, u8::MAX]);
    while rules.len() < count {
        let open: Vec<usize> = (0..rules.len())
            .filter(|&rule| rules[rule].mask != u8::MAX)
            .collect();
        let ones = |&&rule: &&usize| rules[rule].mask.count_ones();
        let chosen = match way {
            0 => open.iter().min_by_key(ones),
            1 => open.iter().find(|&&rule| rules[rule].matches(code)),
            _ => None,
        };
        let rule = chosen.copied().unwrap_or_else(|| rng.pick(&open));
        split(rng, e, &mut rules, rule);
    }
    if !rng.one_in(4) {
        rng.shuffle(&mut rules);
    }
    rules
}

/// Splits a rule, whose mask is not 255, at a bit outside its mask: it keeps the codes without that
/// bit, and a new rule at the end has those with it.
fn split(rng: &mut Rng, e: u8, rules: &mut Vec<Rule>, rule: usize) {
    let Rule { mask, value, .. } = rules[rule];
    let bit = rng.pick(&bits(!mask));
    rules[rule].mask |= bit;
    rules.push(rule_of(rng, e, mask | bit, value | bit));
}

/// The bits of a byte, each alone.
fn bits(byte: u8) -> Vec<u8> {
    let all = (0..8).map(|place| 1 << place);
    all.filter(|bit| byte & bit != 0).collect()
}

/// The rule of all codes with the masked bits of one, and any event.
fn rule_of(rng: &mut Rng, e: u8, mask: u8, code: u8) -> Rule {
    let event = match rng.one_in(6) {
        true => e - 1,
        false => rng.below(e.into()) as u8,
    };
    Rule {
        mask,
        value: code & mask,
        event,
    }
}

/// A rule with any mask and any value inside it.
fn any_rule(rng: &mut Rng, e: u8) -> Rule {
    let code = rng.byte();
    let mask = any_mask(rng);
    rule_of(rng, e, mask, code)
}

/// A mask of few bits, of most, or any.
fn any_mask(rng: &mut Rng) -> u8 {
    match rng.below(4) {
        0 => 1 << rng.below(8),
        1 => rng.byte() & rng.byte(),
        2 => rng.byte() | rng.byte(),
        _ => rng.byte(),
    }
}

/// Rules of any kind, values inside their masks.
pub fn any_rules(rng: &mut Rng, e: u8) -> Vec<Rule> {
    let count = rule_count(rng);
    (0..count).map(|_| any_rule(rng, e)).collect()
}

/// A good table with one thing changed. It stays good if an event changes, if a rule is split or if
/// two rules change places; else it is mostly bad.
pub fn changed_rules(rng: &mut Rng, e: u8) -> Vec<Rule> {
    let count = rule_count(rng).min(MAX_RULES - 1);
    let mut rules = good_rules(rng, e, count);
    let rule = rng.below(count);
    let Rule { mask, value, .. } = rules[rule];
    match rng.below(9) {
        0 => {
            rules[rule].mask ^= 1 << rng.below(8);
            rules[rule].value &= rules[rule].mask;
        }
        1 if mask != 0 => rules[rule].value ^= rng.pick(&bits(mask)),
        2 => rules[rule] = rule_of(rng, e, mask, value),
        3 if count > 1 => {
            rules.remove(rule);
        }
        4 => rules.push(rules[rule]),
        5 if mask != u8::MAX => split(rng, e, &mut rules, rule),
        6 if count > 1 => {
            let (one, other) = two_places(rng, count);
            rules.swap(one, other);
        }
        7 => rules.push(any_rule(rng, e)),
        _ => rules[rule] = any_rule(rng, e),
    }
    rules
}

/// A bad table, each kind in turn: just one bad code (0, 255 or any), a gap or an overlap; rules
/// taken out; rules added; a rule moved, so that the sizes still fit; rules taken out and added,
/// which may fit again once in a long while; many rules at one code; one rule many times; a bit of
/// a mask less or more.
pub fn bad_rules(rng: &mut Rng, e: u8, aim: u64) -> Vec<Rule> {
    let code = match aim / 10 % 3 {
        0 => 0,
        1 => u8::MAX,
        _ => rng.byte(),
    };
    let count = rule_count(rng).clamp(3, MAX_RULES - 4);
    let mut rules = good_rules(rng, e, count);
    let rule = rng.below(count);
    let Rule { mask, value, .. } = rules[rule];
    match aim % 10 {
        0 => return lone_rules(rng, e, code, false),
        1 => return lone_rules(rng, e, code, true),
        2 => take_out(rng, &mut rules),
        3 => add(rng, e, &mut rules),
        4 => rules[rule].value ^= rng.pick(&bits(mask)),
        5 => {
            take_out(rng, &mut rules);
            add(rng, e, &mut rules);
        }
        6 => crowd(rng, e, &mut rules, code),
        7 => {
            let mask = any_mask(rng);
            let rule = rule_of(rng, e, mask, code);
            rules = vec![rule; rng.pick(&[2, 3, MAX_RULES, MAX_RULES])];
        }
        8 => {
            let kept = mask & !rng.pick(&bits(mask));
            rules[rule] = rule_of(rng, e, kept, value);
        }
        _ if mask != u8::MAX => {
            let more = mask | rng.pick(&bits(!mask));
            let code = value | rng.byte() & !mask;
            rules[rule] = rule_of(rng, e, more, code);
        }
        _ => take_out(rng, &mut rules),
    }
    rules
}

/// A table that is bad at one code alone: no rule matches it, or two or three do. The code has a
/// rule of its own, which is left out or stands there again.
fn lone_rules(rng: &mut Rng, e: u8, code: u8, overlap: bool) -> Vec<Rule> {
    let mut rules = vec![rule_of(rng, e, 0, 0)];
    let count = rng.range(9, MAX_RULES - 2);
    while rules.len() < count {
        let open = |rule: &usize| rules[*rule].mask != u8::MAX;
        let all: Vec<usize> = (0..rules.len()).filter(open).collect();
        let first = all.iter().find(|&&rule| rules[rule].matches(code));
        let rule = first.copied().unwrap_or_else(|| rng.pick(&all));
        split(rng, e, &mut rules, rule);
    }
    match overlap {
        true => {
            for _ in 0..rng.range(1, 2) {
                rules.push(rule_of(rng, e, u8::MAX, code));
            }
        }
        false => rules.retain(|rule| !rule.matches(code)),
    }
    if !rng.one_in(4) {
        rng.shuffle(&mut rules);
    }
    rules
}

/// Takes up to three rules out, but not the last one.
fn take_out(rng: &mut Rng, rules: &mut Vec<Rule>) {
    for _ in 0..rng.range(1, 3).min(rules.len() - 1) {
        rules.remove(rng.below(rules.len()));
    }
}

/// Puts up to four rules between the others.
fn add(rng: &mut Rng, e: u8, rules: &mut Vec<Rule>) {
    for _ in 0..rng.range(1, 4) {
        let rule = any_rule(rng, e);
        rules.insert(rng.below(rules.len() + 1), rule);
    }
}

/// Puts some rules that match one code between the others, up to 64 in all.
fn crowd(rng: &mut Rng, e: u8, rules: &mut Vec<Rule>, code: u8) {
    let most = MAX_RULES - rules.len();
    for _ in 0..rng.range(2, most) {
        let mask = any_mask(rng);
        let rule = rule_of(rng, e, mask, code);
        rules.insert(rng.below(rules.len() + 1), rule);
    }
}

/// A table that is refused with 22 or 23, each kind in turn: one rule of either fault, the first,
/// the last or any; two rules, one of each fault, in either order; both faults in one rule; two rules
/// of one fault. But for that it is good or bad.
pub fn refused_rules(rng: &mut Rng, e: u8, aim: u64) -> Vec<Rule> {
    let count = rule_count(rng).max(2);
    let mut rules = match rng.one_in(2) {
        true => good_rules(rng, e, count),
        false => bad_rules(rng, e, aim / 11),
    };
    if rules.len() == 1 {
        rules.push(any_rule(rng, e));
    }
    let last = rules.len() - 1;
    let (one, other) = two_places(rng, rules.len());
    match aim % 11 {
        0 => put_outside(rng, &mut rules[0]),
        1 => put_outside(rng, &mut rules[last]),
        2 => put_outside(rng, &mut rules[one]),
        3 => rules[0].event = no_event(rng, e),
        4 => rules[last].event = no_event(rng, e),
        5 => rules[one].event = no_event(rng, e),
        6 => {
            put_outside(rng, &mut rules[one.min(other)]);
            rules[one.max(other)].event = no_event(rng, e);
        }
        7 => {
            put_outside(rng, &mut rules[one.max(other)]);
            rules[one.min(other)].event = no_event(rng, e);
        }
        8 => {
            put_outside(rng, &mut rules[one]);
            rules[one].event = no_event(rng, e);
        }
        9 => {
            put_outside(rng, &mut rules[one]);
            put_outside(rng, &mut rules[other]);
        }
        _ => {
            rules[one].event = no_event(rng, e);
            rules[other].event = no_event(rng, e);
        }
    }
    rules
}

/// Gives the value of a rule a bit outside its mask.
fn put_outside(rng: &mut Rng, rule: &mut Rule) {
    if rule.mask == u8::MAX {
        rule.mask ^= 1 << rng.below(8);
    }
    rule.value |= rng.pick(&bits(!rule.mask));
}

/// A number that is no event of the sheet: mostly E, or one that another sheet has as an event.
fn no_event(rng: &mut Rng, e: u8) -> u8 {
    match rng.below(4) {
        0 => rng.range(e.into(), u8::MAX.into()) as u8,
        1 => rng.range(e.into(), MAX_EVENTS) as u8,
        2 => rng.pick(&[12, 13, 128, u8::MAX]),
        _ => e,
    }
}

/// A table that is refused with 21, each kind in turn: no bytes, a part rule, more than 64 rules, or
/// both; at times so many bytes that the low bits of their number, or of that of the rules, spell an
/// accepted table. The rules are right, or some of them would be refused too.
pub fn wrong_length(rng: &mut Rng, e: u8, aim: u64) -> Vec<u8> {
    let few = rng.range(1, MAX_RULES);
    let length = match aim % 14 {
        0 => 0,
        1 => 1,
        2 => 2,
        3 => 191,
        4 => 193,
        5 => 194,
        6 => 195,
        7 => 196,
        8 => RULE_BYTES * rng.below(MAX_RULES - 1) + rng.range(1, 2),
        9 => rng.range(197, 255),
        10 => (1 << 8) + RULE_BYTES * few,
        11 => (RULE_BYTES << 8) + RULE_BYTES * few,
        12 => (1 << 16) + RULE_BYTES * few,
        _ => rng.range(197, 5_000),
    };
    let count = match aim % 14 {
        10..=12 => few,
        _ => (length / RULE_BYTES).clamp(1, MAX_RULES + 1),
    };
    let mut rules = good_rules(rng, e, count);
    match rng.below(6) {
        0 => put_outside(rng, &mut rules[0]),
        1 => rules[0].event = no_event(rng, e),
        2 => {
            put_outside(rng, &mut rules[count - 1]);
            rules[0].event = no_event(rng, e);
        }
        _ => {}
    }
    let mut table = table_of(&rules);
    table.resize(length, rng.pick(&[0, 0, 1, u8::MAX]));
    table
}

/// A call of `keypad_check`: a good sheet with a table of every kind, each refusal of a sheet in
/// turn, or another input; mostly no word or a code.
pub fn keypad_call(rng: &mut Rng, round: u64) -> Call {
    let words = code_words(rng);
    let aim = round / 8;
    let sheet = random_sheet(rng);
    let e = sheet.e;
    let mut input = spelled(rng, &sheet);
    let table = match round % 8 {
        0 => {
            let input = other_input(rng, aim, input);
            return Call { input, words };
        }
        1 | 2 => {
            input = damaged(rng, AIMS_READ[aim as usize % AIMS_READ.len()]);
            rule_table(rng, e)
        }
        3 => wrong_length(rng, e, aim),
        4 => table_of(&refused_rules(rng, e, aim)),
        5 => table_of(&bad_rules(rng, e, aim)),
        6 if round % 16 < 8 => table_of(&changed_rules(rng, e)),
        _ => {
            let count = rule_count(rng);
            table_of(&good_rules(rng, e, count))
        }
    };
    input.extend_from_slice(&table);
    Call { input, words }
}

/// An input that is not one sheet and a table: a few bytes, two sheets, a sheet damaged twice, or as
/// many bytes as are read at most, some more or some less.
fn other_input(rng: &mut Rng, aim: u64, good: Vec<u8>) -> Vec<u8> {
    match aim % 6 {
        0 | 1 => (0..rng.below(8)).map(|_| rng.byte()).collect(),
        2 => program_input(rng),
        3 => damaged_twice(rng),
        _ => around_most(rng, good),
    }
}

/// An input that ends near the most bytes that are read: one sheet, whose length field leads near
/// there, or a good sheet and other bytes.
pub(super) fn around_most(rng: &mut Rng, good: Vec<u8>) -> Vec<u8> {
    let end = rng.range(MAX_INPUT - 2, MAX_INPUT + 2);
    let mut bytes = match rng.one_in(4) {
        true => good,
        false => {
            let field = (end - 4) as u32;
            let head = [rng.pick(&[1, 2]), rng.pick(&[1, 12, 13]), 32];
            [&field.to_be_bytes()[..], &head].concat()
        }
    };
    bytes.resize(end + rng.below(4), rng.pick(&[0, 1, u8::MAX]));
    bytes
}

/// The words of a call: none, a code, at times with zeros before it, or something else.
fn code_words(rng: &mut Rng) -> Vec<String> {
    let code = match rng.below(3) {
        0 => rng.pick(&[0, u8::MAX]),
        1 => rng.pick(&[1, 9, 10, 99, 100, 254]),
        _ => rng.byte(),
    };
    match rng.below(20) {
        0..=3 => Vec::new(),
        4 => vec![
            code.to_string(),
            rng.pick(&["", "0", "200", "x"]).to_string(),
        ],
        5..=7 => vec![wrong_code(rng, code)],
        8..=11 => {
            let width = rng.pick(&[2, 3, 4, 5, 5]);
            vec![format!("{code:0width$}")]
        }
        _ => vec![code.to_string()],
    }
}

/// A word that is no code: a number above 255, or above 65,535, of which the low bits are a code; a
/// code but for more digits, a sign, a blank or a letter; or no number at all.
fn wrong_code(rng: &mut Rng, code: u8) -> String {
    match rng.below(17) {
        0 | 1 => rng.pick(&["256", "00256", "999", "65535"]).to_string(),
        2 => (256 * rng.range(1, 255) + usize::from(code)).to_string(),
        3 | 4 => (65_536 + usize::from(code)).to_string(),
        5 | 6 => format!("{code:06}"),
        7 | 8 => format!("{code:0100}"),
        9 => format!("+{code}"),
        10 => format!("-{code}"),
        11 => format!(" {code}"),
        12 => format!("{code} "),
        13 => format!("{code}x"),
        14 => rng.pick(&["x", "0x10", "code", "1.0"]).to_string(),
        _ => String::new(),
    }
}
