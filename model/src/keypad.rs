//! A keypad's rule table: which codes its rules match, whether each code has just one rule, and
//! the event that a code has.

use crate::sheet::{accept, Sheet};

/// The most rules of a table.
pub const MAX_RULES: usize = 64;
/// The bytes of one rule.
pub const RULE_BYTES: usize = 3;

/// One rule of a table.
#[derive(Clone, Copy, PartialEq, Eq, Debug)]
pub struct Rule {
    pub mask: u8,
    pub value: u8,
    pub event: u8,
}

impl Rule {
    /// The rule of three bytes.
    pub fn of(bytes: &[u8]) -> Rule {
        Rule {
            mask: bytes[0],
            value: bytes[1],
            event: bytes[2],
        }
    }

    /// The three bytes of the rule.
    pub fn bytes(&self) -> [u8; RULE_BYTES] {
        [self.mask, self.value, self.event]
    }

    /// Whether the code's masked bits equal the value.
    pub fn matches(&self, code: u8) -> bool {
        code & self.mask == self.value
    }

    /// Whether the value has a bit outside the mask.
    pub fn is_outside(&self) -> bool {
        self.value & !self.mask != 0
    }
}

/// What is wrong with a table at a code.
#[derive(Clone, Copy, PartialEq, Eq, Debug)]
pub enum Bad {
    /// No rule matches the code.
    Gap { code: u8 },
    /// More than one rule matches the code; the two lowest of these.
    Overlap { code: u8, first: u8, second: u8 },
}

/// The answer on a table.
#[derive(Clone, Copy, PartialEq, Eq, Debug)]
pub enum Checked {
    /// Each code is matched by just one rule.
    Good,
    /// What is wrong at the smallest bad code.
    Bad(Bad),
}

/// The answer to a lookup.
#[derive(Clone, Copy, PartialEq, Eq, Debug)]
pub enum Looked {
    /// The event of the code, in a good table.
    Event(u8),
    /// What is wrong at the smallest bad code of a bad table, whichever code was asked.
    Bad(Bad),
}

/// Whether a table is good, or the refusal: the sheet's, 21, 22, 23.
pub fn check(sheet: &Sheet, table: &[u8]) -> Result<Checked, u8> {
    let rules = admit(sheet, table)?;
    Ok(match smallest_bad(&rules) {
        None => Checked::Good,
        Some(bad) => Checked::Bad(bad),
    })
}

/// The event of a code, or the refusal: the sheet's, 21, 22, 23.
pub fn find(sheet: &Sheet, table: &[u8], code: u8) -> Result<Looked, u8> {
    let rules = admit(sheet, table)?;
    Ok(match (smallest_bad(&rules), &matching(&rules, code)[..]) {
        (Some(bad), _) => Looked::Bad(bad),
        (None, &[rule]) => Looked::Event(rules[rule].event),
        (None, rules) => unreachable!("a good table with {rules:?} for {code}"),
    })
}

/// The rules of a table that the calls admit.
fn admit(sheet: &Sheet, table: &[u8]) -> Result<Vec<Rule>, u8> {
    accept(sheet)?;
    let rules = rules_of(table).ok_or(21)?;
    if rules.iter().any(Rule::is_outside) {
        return Err(22);
    }
    if rules.iter().any(|rule| rule.event >= sheet.e) {
        return Err(23);
    }
    Ok(rules)
}

/// The rules of a table, if it has 1 to 64 of them and no part of another.
pub fn rules_of(table: &[u8]) -> Option<Vec<Rule>> {
    let whole = table.chunks_exact(RULE_BYTES);
    let fits = whole.remainder().is_empty() && (1..=MAX_RULES).contains(&whole.len());
    fits.then(|| whole.map(Rule::of).collect())
}

/// The table of some rules.
pub fn table_of(rules: &[Rule]) -> Vec<u8> {
    rules.iter().flat_map(Rule::bytes).collect()
}

/// Every rule that matches a code, counted from 0.
pub fn matching(rules: &[Rule], code: u8) -> Vec<usize> {
    let numbers = 0..rules.len();
    numbers.filter(|&rule| rules[rule].matches(code)).collect()
}

/// What is wrong at a code, if something is.
pub fn bad_at(rules: &[Rule], code: u8) -> Option<Bad> {
    match matching(rules, code)[..] {
        [] => Some(Bad::Gap { code }),
        [_] => None,
        [first, second, ..] => Some(Bad::Overlap {
            code,
            first: first as u8,
            second: second as u8,
        }),
    }
}

/// What is wrong at the smallest bad code, if there is one.
pub fn smallest_bad(rules: &[Rule]) -> Option<Bad> {
    (0..=u8::MAX).find_map(|code| bad_at(rules, code))
}

/// Whether two rules have no code in common: some bit that both look at differs.
pub fn apart(one: &Rule, other: &Rule) -> bool {
    (one.value ^ other.value) & one.mask & other.mask != 0
}

/// How many codes a rule has whose value is inside its mask.
pub fn size(rule: &Rule) -> usize {
    1 << (8 - rule.mask.count_ones())
}

/// Whether rules whose values are inside their masks make a good table, in a form that looks at no
/// code: they are apart, and their sizes sum to 256.
pub fn divides(rules: &[Rule]) -> bool {
    let pairs = (0..rules.len()).all(|k| (0..k).all(|i| apart(&rules[i], &rules[k])));
    pairs && rules.iter().map(size).sum::<usize>() == 256
}
