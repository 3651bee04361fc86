//! Rule tables of keypads: the check and lookups, on good tables of every number of rules, near ones,
//! bad ones of every kind, and tables and sheets that are refused.

use model::keypad::{
    bad_at, divides, matching, rules_of, table_of, Bad, Rule, MAX_RULES, RULE_BYTES,
};
use model::numbers::{find_numbers, keypad_numbers, Keypad, EVENT, GOOD, OVERLAP};
use model::planted::keypads::{find_numbers_with, keypad_numbers_with, KeypadFault};
use model::random::{
    asked_code, bad_rules, changed_rules, good_rules, kept, random_sheet, refused_rules,
    rule_table, sheet_of_size, wrong_length, Rng, AIMS_KEPT,
};
use model::sheet::{check, has_first_codes, Sheet, MAX_EVENTS};

use super::{bad_sheet, catch, shown_sheet, KEPT};
use crate::edge;
use crate::findings::Findings;
use crate::play::Part;

const CHECK: &str = "check of a table, 0 told or the refusal";
const FIND: &str = "lookup, 0 told or the refusal";
const KINDS: &str = "tables told, by kind";
const FOUND: &str = "lookups told, by kind";
const RULES: &str = "good tables, by their rules";
const BAD_RULES: &str = "bad tables, 1 (0), 2 (1), 3 to 62 (2), 63 (3), 64 (4) rules";
const GAPS: &str = "gaps, at 0 (0), 1 to 127 (1), 128 to 254 (2), 255 (3)";
const OVERLAPS: &str = "overlaps, at 0 (0), 1 to 127 (1), 128 to 254 (2), 255 (3)";
const MIXED: &str =
    "bad tables, gaps alone (0), overlaps alone (1), a gap first (2), an overlap first (3)";
const LONE: &str = "bad tables with one bad code, a gap (0), an overlap (1), at 255 so (2, 3)";
const SIZES: &str = "bad tables whose sizes sum to less than 256 (0), to 256 (1), to more (2)";
const MATCHES: &str = "overlaps, 2 (0), 3 (1), 4 to 63 (2), 64 (3) rules at the code";
const PLACES: &str =
    "overlaps, first rule 0 (0) or later (1); so (2, 3) where a third rule matches";
const SAME: &str = "overlaps, rules of different events (0), of one event (1)";
const ASKED: &str = "lookups in a bad table, below the bad code (0), at it (1), above it with one \
    rule (2), none (3), more (4)";
const CODES: &str = "events found, of code 0 (0), 1 to 127 (1), 128 to 254 (2), 255 (3)";
const EVENTS: &str = "events found";
const LAST: &str = "events found, 0 below E - 1, 1 it, 2 it with E 12";
const BY_RULE: &str = "events found by rule 0 (0), the last (1), another below 32 (2), above (3)";
const LENGTH: &str = "refused 21, by the bytes; 300 other part rules, 301 to 255 bytes, \
    302 to 767, 303 to 65535, 304 more";
const WHOLE: &str = "refused 21, whole rules right (0), with 22 (1), 23 (2), both (3), none (4)";
const OUTSIDE: &str = "refused 22, by rule 0 (0), the last (1), another (2), several (3)";
const ORDER: &str = "refused 22, no rule for 23 (0), an earlier (1), the same (2), a later (3)";
const NO_EVENT: &str = "refused 23 with E (0), more up to 11 (1), 12 with a lower E (2), above (3)";
const LATE: &str = "refused 23, by rule 0 (0), the last (1), another (2), several (3)";
const BUT: &str = "refused 23, but for it good (0), a gap (1), an overlap (2)";
const SHEET: &str =
    "refused sheets, 100 times the refusal and what the table would get: its refusal, \
    31 good, 32 a gap, 33 an overlap";
const VERSION: &str = "told on a sheet with the codes of version 1 (0), with others (1)";
const SIZE: &str = "told, by E";

pub const PART: Part = Part {
    name: "keypads",
    rounds: 3_840,
    findings,
    round,
    demands: |_| {},
};

fn findings() -> Findings {
    let refusals = || vec![0, 3, 5, 6, 7, 8, 18, 21, 22, 23];
    let groups = vec![
        (CHECK, refusals()),
        (FIND, refusals()),
        (KINDS, vec![31, 32, 33]),
        (FOUND, vec![32, 33, 34]),
        (RULES, (1..=MAX_RULES as u64).collect()),
        (BAD_RULES, (0..=4).collect()),
        (GAPS, (0..=3).collect()),
        (OVERLAPS, (0..=3).collect()),
        (MIXED, (0..=3).collect()),
        (LONE, (0..=3).collect()),
        (SIZES, (0..=2).collect()),
        (MATCHES, (0..=3).collect()),
        (PLACES, (0..=3).collect()),
        (SAME, vec![0, 1]),
        (ASKED, (0..=4).collect()),
        (CODES, (0..=3).collect()),
        (EVENTS, (0..MAX_EVENTS as u64).collect()),
        (LAST, vec![0, 1, 2]),
        (BY_RULE, (0..=3).collect()),
        (LENGTH, lengths()),
        (WHOLE, (0..=4).collect()),
        (OUTSIDE, (0..=3).collect()),
        (ORDER, (0..=3).collect()),
        (NO_EVENT, (0..=3).collect()),
        (LATE, (0..=3).collect()),
        (BUT, vec![0, 1, 2]),
        (SHEET, sheets()),
        (VERSION, vec![0, 1]),
        (SIZE, (1..=MAX_EVENTS as u64).collect()),
    ];
    let plants = plants().into_iter();
    let name = |(call, fault): (Call, KeypadFault)| format!("{fault:?} in {call:?}");
    Findings::new(groups, plants.map(name).collect())
}

/// The classes of lengths that are refused.
fn lengths() -> Vec<u64> {
    let near = [0, 1, 2, 191, 193, 194, 195, 196];
    near.into_iter().chain(300..=304).collect()
}

/// The classes of refused sheets.
fn sheets() -> Vec<u64> {
    let tables = [21, 22, 23, 31, 32, 33];
    let pairs = KEPT
        .iter()
        .flat_map(|&number| tables.map(|table| (number, table)));
    pairs.map(|(number, table)| 100 * number + table).collect()
}

/// The two calls of this part.
#[derive(Clone, Copy, PartialEq, Eq, Debug)]
enum Call {
    Check,
    Find,
}

/// Each call with each fault that can be planted in it.
fn plants() -> Vec<(Call, KeypadFault)> {
    let all = KeypadFault::ALL.iter().copied();
    let check = all.clone().filter(|fault| fault.in_check());
    let check = check.map(|fault| (Call::Check, fault));
    check.chain(all.map(|fault| (Call::Find, fault))).collect()
}

/// A good table, each number of rules in turn; a near one, a bad one, one with a wrong rule, one of a
/// wrong length and any; each refusal of a sheet with each kind of table; and any sheet.
fn round(rng: &mut Rng, round: u64, findings: &mut Findings) {
    let (e, n) = (1 + round as usize % MAX_EVENTS, rng.range(1, 8));
    let sheet = sheet_of_size(rng, e, n);
    let rules = good_rules(rng, sheet.e, 1 + round as usize % MAX_RULES);
    tried(rng, findings, &sheet, &table_of(&rules));
    let sheet = random_sheet(rng);
    for table in [
        table_of(&changed_rules(rng, sheet.e)),
        table_of(&bad_rules(rng, sheet.e, round)),
        table_of(&refused_rules(rng, sheet.e, round)),
        wrong_length(rng, sheet.e, round),
        rule_table(rng, sheet.e),
    ] {
        tried(rng, findings, &sheet, &table);
    }
    let turn = round as usize;
    let refused = kept(rng, AIMS_KEPT[turn % AIMS_KEPT.len()]);
    let e = refused.e.clamp(1, MAX_EVENTS as u8);
    let aim = rng.next_u64();
    let table = match turn / AIMS_KEPT.len() % 6 {
        0 => table_of(&good_rules(rng, e, 1 + turn % MAX_RULES)),
        1 | 2 => table_of(&bad_rules(rng, e, aim)),
        3 | 4 => table_of(&refused_rules(rng, e, aim)),
        _ => wrong_length(rng, e, aim),
    };
    tried(rng, findings, &refused, &table);
    count_refused_sheet(findings, &refused, &table);
    let any = bad_sheet(rng);
    let table = rule_table(rng, any.e.clamp(1, MAX_EVENTS as u8));
    tried(rng, findings, &any, &table);
}

/// A table is checked, and two codes are looked up in it.
fn tried(rng: &mut Rng, findings: &mut Findings, sheet: &Sheet, table: &[u8]) {
    let answer = try_check(findings, sheet, table);
    count_table(findings, sheet, table, &answer);
    for _ in 0..2 {
        let code = asked_code(rng, table);
        try_find(findings, sheet, table, code);
    }
}

/// The library's answer, held against the form of a good table that looks at no code.
fn held_by_rules(findings: &mut Findings, table: &[u8], ours: Keypad) {
    if ours.refusal != 0 {
        return;
    }
    let divided = rules_of(table).is_some_and(|rules| divides(&rules));
    findings.compared((ours.kind == GOOD) == divided, || {
        format!(
            "check of {}: library {ours:?}, by the rules {divided}",
            shown_table(table)
        )
    });
}

/// One check by the library, by the model, and by each fault planted in it that is not caught yet;
/// the model's answer.
fn try_check(findings: &mut Findings, sheet: &Sheet, table: &[u8]) -> Keypad {
    let ours = edge::keypad(sheet, table);
    let model = keypad_numbers(sheet, table);
    findings.compared(ours == model, || {
        format!(
            "check of {} on {}: model {model:?}, library {ours:?}",
            shown_table(table),
            shown_sheet(sheet)
        )
    });
    held_by_rules(findings, table, ours);
    catch(findings, &plants(), |(call, fault)| {
        call == Call::Check && keypad_numbers_with(fault, sheet, table) != ours
    });
    model
}

/// One lookup by the library, by the model, and by each fault planted in it that is not caught yet.
fn try_find(findings: &mut Findings, sheet: &Sheet, table: &[u8], code: u8) {
    let ours = edge::find(sheet, table, code);
    let model = find_numbers(sheet, table, code);
    findings.compared(ours == model, || {
        format!(
            "lookup of {code} in {} on {}: model {model:?}, library {ours:?}",
            shown_table(table),
            shown_sheet(sheet)
        )
    });
    findings.count(FIND, u64::from(model.refusal));
    if model.refusal == 0 {
        findings.count(FOUND, u64::from(model.kind));
        let rules = rules_of(table).unwrap_or_default();
        let with = matching(&rules, code);
        match model.kind {
            EVENT => {
                findings.count(CODES, code_class(code));
                findings.count(EVENTS, u64::from(model.event));
                let last = model.event + 1 == sheet.e;
                let most = usize::from(sheet.e) == MAX_EVENTS;
                findings.count(LAST, u64::from(last) + u64::from(last && most));
                findings.count(BY_RULE, place_class(with[0], rules.len()));
            }
            _ => {
                let class = match with.len() {
                    _ if code < model.code => 0,
                    _ if code == model.code => 1,
                    1 => 2,
                    0 => 3,
                    _ => 4,
                };
                findings.count(ASKED, class);
            }
        }
    }
    catch(findings, &plants(), |(call, fault)| {
        call == Call::Find && find_numbers_with(fault, sheet, table, code) != ours
    });
}

/// Counts what a check has to do with the table.
fn count_table(findings: &mut Findings, sheet: &Sheet, table: &[u8], answer: &Keypad) {
    findings.count(CHECK, u64::from(answer.refusal));
    match answer.refusal {
        0 => {}
        21 => return count_length(findings, sheet, table),
        22 | 23 => return count_rules(findings, sheet, table, answer.refusal),
        _ => return,
    }
    let rules = rules_of(table).unwrap_or_default();
    findings.count(KINDS, u64::from(answer.kind));
    findings.count(VERSION, u64::from(!has_first_codes(sheet)));
    findings.count(SIZE, u64::from(sheet.e));
    match answer.kind {
        GOOD => findings.count(RULES, rules.len() as u64),
        kind => {
            count_bad(findings, &rules);
            let group = if kind == OVERLAP { OVERLAPS } else { GAPS };
            findings.count(group, code_class(answer.code));
        }
    }
    if answer.kind == OVERLAP {
        count_overlap(findings, &rules, answer);
    }
}

/// The class of a code: the first, the lower half, the upper half, the last.
fn code_class(code: u8) -> u64 {
    match code {
        0 => 0,
        1..=127 => 1,
        128..=254 => 2,
        255 => 3,
    }
}

/// The class of a rule that gave an event.
fn place_class(rule: usize, count: usize) -> u64 {
    match rule {
        0 => 0,
        _ if rule + 1 == count => 1,
        1..=31 => 2,
        _ => 3,
    }
}

/// Counts the gaps and overlaps of a bad table, and its sizes.
fn count_bad(findings: &mut Findings, rules: &[Rule]) {
    let class = match rules.len() {
        1 => 0,
        2 => 1,
        3..=62 => 2,
        63 => 3,
        _ => 4,
    };
    findings.count(BAD_RULES, class);
    let bad: Vec<Bad> = (0..=255).filter_map(|code| bad_at(rules, code)).collect();
    let is_gap = |bad: &Bad| matches!(bad, Bad::Gap { .. });
    let gaps = bad.iter().filter(|&bad| is_gap(bad)).count();
    let class = match gaps {
        _ if gaps == bad.len() => 0,
        0 => 1,
        _ if is_gap(&bad[0]) => 2,
        _ => 3,
    };
    findings.count(MIXED, class);
    if let [Bad::Gap { code } | Bad::Overlap { code, .. }] = bad[..] {
        let last = u64::from(code == 255);
        findings.count(LONE, u64::from(gaps == 0) + 2 * last);
    }
    let size = |rule: &Rule| 1usize << rule.mask.count_zeros();
    let class = match rules.iter().map(size).sum() {
        0..=255 => 0,
        256 => 1,
        _ => 2,
    };
    findings.count(SIZES, class);
}

/// Counts what an overlap has to do with its rules.
fn count_overlap(findings: &mut Findings, rules: &[Rule], answer: &Keypad) {
    let with = matching(rules, answer.code);
    let class = match with.len() {
        2 => 0,
        3 => 1,
        4..=63 => 2,
        _ => 3,
    };
    findings.count(MATCHES, class);
    let third = 2 * u64::from(with.len() > 2);
    findings.count(PLACES, u64::from(with[0] > 0) + third);
    let event = |rule: u8| rules[usize::from(rule)].event;
    let same = event(answer.first) == event(answer.second);
    findings.count(SAME, u64::from(same));
}

/// Counts a table that is refused with 21.
fn count_length(findings: &mut Findings, sheet: &Sheet, table: &[u8]) {
    let length = table.len();
    let class = match length as u64 {
        near if lengths().contains(&near) => near,
        0..=190 => 300,
        191..=255 => 301,
        256..=767 => 302,
        768..=65_535 => 303,
        _ => 304,
    };
    findings.count(LENGTH, class);
    let rules: Vec<Rule> = table.chunks_exact(RULE_BYTES).map(Rule::of).collect();
    let outside = rules.iter().any(Rule::is_outside);
    let event = rules.iter().any(|rule| rule.event >= sheet.e);
    let class = match rules.len() {
        0 => 4,
        _ => u64::from(outside) + 2 * u64::from(event),
    };
    findings.count(WHOLE, class);
}

/// Counts a table that is refused with 22 or 23.
fn count_rules(findings: &mut Findings, sheet: &Sheet, table: &[u8], refusal: u8) {
    let rules = rules_of(table).unwrap_or_default();
    let places = |wrong: &dyn Fn(&Rule) -> bool| -> Vec<usize> {
        (0..rules.len()).filter(|&i| wrong(&rules[i])).collect()
    };
    let outside = places(&Rule::is_outside);
    let events = places(&|rule| rule.event >= sheet.e);
    let place = |places: &[usize]| match *places {
        [0] => 0,
        [one] if one + 1 == rules.len() => 1,
        [_] => 2,
        _ => 3,
    };
    if refusal == 22 {
        findings.count(OUTSIDE, place(&outside));
        let class = match events.first() {
            None => 0,
            Some(event) if event < &outside[0] => 1,
            Some(event) if event == &outside[0] => 2,
            Some(_) => 3,
        };
        findings.count(ORDER, class);
        return;
    }
    findings.count(LATE, place(&events));
    let class = match rules[events[0]].event {
        event if event == sheet.e => 0,
        event if usize::from(event) < MAX_EVENTS => 1,
        12 => 2,
        _ => 3,
    };
    findings.count(NO_EVENT, class);
    let bad = (0..=255).find_map(|code| bad_at(&rules, code));
    let class = match bad {
        None => 0,
        Some(Bad::Gap { .. }) => 1,
        Some(Bad::Overlap { .. }) => 2,
    };
    findings.count(BUT, class);
}

/// Counts a refused sheet by what its table gets on an accepted sheet of as many events.
fn count_refused_sheet(findings: &mut Findings, sheet: &Sheet, table: &[u8]) {
    let e = usize::from(sheet.e).clamp(1, MAX_EVENTS);
    let accepted = sheet_of_size(&mut Rng::new(0), e, 1);
    let answer = keypad_numbers(&accepted, table);
    let class = u64::from(answer.refusal.max(answer.kind));
    findings.count(SHEET, 100 * u64::from(check(sheet)) + class);
}

fn shown_table(table: &[u8]) -> String {
    let most = table.len().min(200);
    format!("{} bytes {:?}", table.len(), &table[..most])
}
