//! Rule tables of keypads, beside a sheet as flat tables.

use model::keypad::{MAX_RULES, RULE_BYTES};
use model::numbers::{Found, Keypad, EVENT, GAP, GOOD, OVERLAP};

use super::tables::{check, Tables};

/// Checks a rule table: every code by all rules, which are left at the second match.
pub fn keypad(sheet: &Tables, table: &[u8]) -> Keypad {
    let refusal = refusal(sheet, table);
    if refusal != 0 {
        return answer(refusal, 0, 0, 0, 0);
    }
    for code in 0..=255 {
        let mut first = None;
        for (i, rule) in table.chunks_exact(RULE_BYTES).enumerate() {
            if code & rule[0] == rule[1] {
                match first {
                    None => first = Some(i),
                    Some(first) => return answer(0, OVERLAP, code, first, i),
                }
            }
        }
        if first.is_none() {
            return answer(0, GAP, code, 0, 0);
        }
    }
    answer(0, GOOD, 0, 0, 0)
}

/// Looks a code up: a check, and the first rule that matches.
pub fn find(sheet: &Tables, table: &[u8], asked: u8) -> Found {
    let Keypad {
        refusal,
        mut kind,
        code,
        first,
        second,
    } = keypad(sheet, table);
    let mut event = 0;
    if kind == GOOD {
        let mut rules = table.chunks_exact(RULE_BYTES);
        event = rules
            .find(|rule| asked & rule[0] == rule[1])
            .map_or(0, |rule| rule[2]);
        kind = EVENT;
    }
    Found {
        refusal,
        kind,
        event,
        code,
        first,
        second,
    }
}

/// The refusals: the sheet's, 21, 22, 23.
fn refusal(sheet: &Tables, table: &[u8]) -> u8 {
    let rules = || table.chunks_exact(RULE_BYTES);
    match check(sheet) {
        0 if table.is_empty() || table.len() > RULE_BYTES * MAX_RULES => 21,
        0 if table.len() % RULE_BYTES != 0 => 21,
        0 if rules().any(|rule| rule[1] & !rule[0] != 0) => 22,
        0 if rules().any(|rule| rule[2] >= sheet.e) => 23,
        number => number,
    }
}

/// An answer in numbers.
fn answer(refusal: u8, kind: u8, code: u8, first: usize, second: usize) -> Keypad {
    Keypad {
        refusal,
        kind,
        code,
        first: first as u8,
        second: second as u8,
    }
}
