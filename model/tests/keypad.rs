//! Rule tables of keypads: some cases of 02, the edges, the order of refusals, and the answers
//! held against the definitions written out literally and against another form of them, which looks
//! at rules and never at codes one by one.

use model::examples::{never_stops, program_pair, PROGRAM_INPUT};
use model::keypad::{
    apart, bad_at, check, divides, find, matching, rules_of, size, smallest_bad, table_of, Bad,
    Checked, Looked, Rule, MAX_RULES,
};
use model::numbers::{find_numbers, keypad_numbers, Found, Keypad};
use model::random::*;
use model::sheet::{encode, has_first_codes, Sheet, NO_NODE};
use model::text::keypad_check::{output, Call};

/// The check of some rules on a sheet: what the numbers are.
fn told(sheet: &Sheet, rules: &[[u8; 3]]) -> [u8; 5] {
    let Keypad {
        refusal,
        kind,
        code,
        first,
        second,
    } = keypad_numbers(sheet, &rules.concat());
    [refusal, kind, code, first, second]
}

/// The lookup of a code.
fn looked(sheet: &Sheet, rules: &[[u8; 3]], asked: u8) -> [u8; 6] {
    let Found {
        refusal,
        kind,
        event,
        code,
        first,
        second,
    } = find_numbers(sheet, &rules.concat(), asked);
    [refusal, kind, event, code, first, second]
}

/// A sheet of two events, and one of one event.
fn two() -> Sheet {
    program_pair().0
}
fn one() -> Sheet {
    never_stops()
}

/// One node of twelve events without successors.
fn twelve() -> Sheet {
    Sheet::build(12, &[([NO_NODE; 12], [0])])
}

const HALVES: [[u8; 3]; 2] = [[128, 0, 0], [128, 128, 1]];
const OVERLAP: [[u8; 3]; 3] = [[1, 0, 0], [1, 1, 1], [3, 2, 1]];

/// The rules of mask 252 and values 0, 4 and so on, as many as asked for.
fn fours(count: usize) -> Vec<[u8; 3]> {
    let rule = |i: usize| [252, (4 * i) as u8, (i % 2) as u8];
    (0..count).map(rule).collect()
}

#[test]
fn some_cases_of_02() {
    assert_eq!(told(&one(), &[[0, 0, 0]]), [0, 31, 0, 0, 0]);
    let two = two();
    assert_eq!(told(&two, &HALVES), [0, 31, 0, 0, 0]);
    assert_eq!(told(&two, &[[128, 0, 0]]), [0, 32, 128, 0, 0]);
    let both = [[128, 0, 0], [0, 0, 1]];
    assert_eq!(told(&two, &both), [0, 33, 0, 0, 1]);
    assert_eq!(told(&two, &OVERLAP), [0, 33, 2, 0, 2]);
    let gap = [[192, 0, 0], [192, 64, 1], [192, 192, 0]];
    assert_eq!(told(&two, &gap), [0, 32, 128, 0, 0]);
    assert_eq!(told(&two, &[[128, 1, 0]]), [22, 0, 0, 0, 0]);
    assert_eq!(told(&two, &[[128, 128, 9]]), [23, 0, 0, 0, 0]);
    assert_eq!(told(&two, &[]), [21, 0, 0, 0, 0]);
    assert_eq!(looked(&two, &HALVES, 200), [0, 34, 1, 0, 0, 0]);
    for asked in [200, 5] {
        let answer = looked(&two, &[[128, 0, 0]], asked);
        assert_eq!(answer, [0, 32, 0, 128, 0, 0]);
    }
    assert_eq!(looked(&two, &OVERLAP, 1), [0, 33, 0, 2, 0, 2]);
    assert_eq!(looked(&two, &[[128, 1, 0]], 1), [22, 0, 0, 0, 0, 0]);
    assert_eq!(looked(&two, &[[128, 128, 9]], 1), [23, 0, 0, 0, 0, 0]);
    assert_eq!(looked(&two, &[], 1), [21, 0, 0, 0, 0, 0]);
}

#[test]
fn lengths_of_tables() {
    let two = two();
    let long = fours(64).concat().repeat(4);
    let answer = |length: usize| keypad_numbers(&two, &long[..length]);
    for length in 0..long.len() {
        let refused = length == 0 || length > 192 || length % 3 != 0;
        let found = find_numbers(&two, &long[..length], 7);
        assert_eq!(answer(length).refusal, if refused { 21 } else { 0 });
        assert_eq!(found.refusal, answer(length).refusal);
        if !refused && length < 192 {
            let (kind, code) = (answer(length).kind, usize::from(answer(length).code));
            assert_eq!((kind, code), (32, 4 * (length / 3)));
        }
    }
    for length in [0, 1, 2, 191, 193, 194, 195, 196] {
        assert_eq!(check(&two, &long[..length]), Err(21), "{length}");
    }
    assert_eq!(check(&two, &long[..192]), Ok(Checked::Good));
    assert_eq!(told(&two, &fours(1)), [0, 32, 4, 0, 0]);
    for length in [256 + 3, 768 + 3, 65_536 + 3] {
        let mut table = vec![0; length];
        table[2] = 1;
        assert_eq!(check(&two, &table), Err(21), "{length}");
    }
}

#[test]
fn sixty_four_rules() {
    let two = two();
    let all = fours(64);
    assert_eq!(told(&two, &all), [0, 31, 0, 0, 0]);
    for code in 0..=255 {
        let event = code / 4 % 2;
        assert_eq!(looked(&two, &all, code), [0, 34, event, 0, 0, 0]);
    }
    let more = [&all[..], &[[255, 7, 0]]].concat();
    assert_eq!(told(&two, &more), [21, 0, 0, 0, 0]);
    let mut last = all.clone();
    last[63] = [254, 252, 0];
    assert_eq!(told(&two, &last), [0, 32, 254, 0, 0]);
    last[63] = [252, 0, 0];
    assert_eq!(told(&two, &last), [0, 33, 0, 0, 63]);
    last[63] = [0, 0, 0];
    assert_eq!(told(&two, &last), [0, 33, 0, 0, 63]);
    let same = [[0, 0, 1]; 64];
    assert_eq!(told(&two, &same), [0, 33, 0, 0, 1]);
}

/// Rules of one code each cannot be good: 64 of them leave 192 codes.
#[test]
fn single_codes_leave_a_gap() {
    let mut rng = Rng::new(121);
    let two = two();
    for count in 1..=MAX_RULES {
        let mut codes: Vec<u8> = (0..=255).collect();
        rng.shuffle(&mut codes);
        let rules: Vec<[u8; 3]> = codes[..count].iter().map(|&code| [255, code, 0]).collect();
        codes[..count].sort_unstable();
        let free = (0..=255).find(|code| !codes[..count].contains(code));
        let gap = Bad::Gap {
            code: free.expect("a code"),
        };
        assert_eq!(check(&two, &rules.concat()), Ok(Checked::Bad(gap)));
    }
}

#[test]
fn the_first_and_the_last_code() {
    let two = two();
    // for each bit the codes that differ in it and have the same higher bits: all but the code
    let path = |code: u8| -> Vec<[u8; 3]> {
        let leaf = |bit: u32| {
            let mask = !0u8 << bit;
            [mask, (code ^ 1 << bit) & mask, 1]
        };
        (0..8).map(leaf).collect()
    };
    for code in [0, 1, 127, 128, 254, 255] {
        let without = path(code);
        assert_eq!(told(&two, &without), [0, 32, code, 0, 0]);
        let whole = [&without[..], &[[255, code, 0]]].concat();
        assert_eq!(told(&two, &whole), [0, 31, 0, 0, 0]);
        assert_eq!(looked(&two, &whole, code), [0, 34, 0, 0, 0, 0]);
        assert_eq!(looked(&two, &whole, !code), [0, 34, 1, 0, 0, 0]);
        let twice = [&whole[..], &[[255, code, 1]]].concat();
        assert_eq!(told(&two, &twice), [0, 33, code, 8, 9]);
        let thrice = [&[[255, code, 1]], &twice[..]].concat();
        assert_eq!(told(&two, &thrice), [0, 33, code, 0, 9]);
    }
}

#[test]
fn refusals_in_their_order() {
    let two = two();
    let (good, outside, event) = ([0, 0, 1], [128, 1, 0], [0, 0, 2]);
    let both = [128, 1, 2];
    for (rules, number) in [
        (vec![event, outside], 22),
        (vec![outside, event], 22),
        (vec![both], 22),
        (vec![event, event, event, event, event, outside], 22),
        (vec![good, outside], 22),
        (vec![outside, good], 22),
        (vec![event, good], 23),
        (vec![good, event], 23),
        (vec![good, good, event], 23),
    ] {
        assert_eq!(told(&two, &rules)[0], number, "{rules:?}");
        assert_eq!(looked(&two, &rules, 3)[0], number, "{rules:?}");
        let mut part = rules.concat();
        part.push(0);
        assert_eq!(check(&two, &part), Err(21), "{rules:?}");
        let mut many = rules.clone();
        many.resize(65, good);
        assert_eq!(told(&two, &many)[0], 21, "{rules:?}");
        many.truncate(64);
        assert_eq!(told(&two, &many)[0], number, "{rules:?}");
    }
    for e in 1..=12 {
        let succ = vec![NO_NODE; e];
        let sheet = Sheet::build(e as u8, &[(succ, [0])]);
        for event in 0..=255 {
            let rules = [[128, 0, 0], [128, 128, event]];
            let answer = told(&sheet, &rules);
            let refused = event >= sheet.e;
            assert_eq!(answer[..2], if refused { [23, 0] } else { [0, 31] });
        }
    }
}

/// Any value with a bit outside its mask, and no other, is refused with 22.
#[test]
fn values_and_masks() {
    let two = two();
    for mask in 0..=255u8 {
        for value in 0..=255u8 {
            let inside = (0..8).all(|bit| value >> bit & 1 == 0 || mask >> bit & 1 == 1);
            let refusal = told(&two, &[[mask, value, 0]])[0];
            assert_eq!(refusal, if inside { 0 } else { 22 }, "{mask} {value}");
        }
    }
}

#[test]
fn the_sheet_comes_first() {
    let mut rng = Rng::new(122);
    for round in 0..600 {
        let aim = AIMS_KEPT[round % AIMS_KEPT.len()];
        let bad = kept(&mut rng, aim);
        let e = bad.e.clamp(1, 12);
        let table = match round / AIMS_KEPT.len() % 5 {
            0 => wrong_length(&mut rng, e, round as u64),
            1 => table_of(&refused_rules(&mut rng, e, round as u64)),
            2 => table_of(&bad_rules(&mut rng, e, round as u64)),
            3 => table_of(&good_rules(&mut rng, e, 5)),
            _ => Vec::new(),
        };
        assert_eq!(check(&bad, &table), Err(aim));
        assert_eq!(find(&bad, &table, rng.byte()), Err(aim));
        let zeros = keypad_numbers(&bad, &table);
        assert_eq!(zeros, keypad_numbers(&bad, &[]));
        assert_eq!((zeros.kind, zeros.code), (0, 0));
    }
    assert_eq!(check(&Sheet::ZERO, &[]), Err(3));
}

/// A rule matches a code if each masked bit of the code is that of the value; all masks, all values
/// inside them, all codes.
#[test]
fn matches_are_those_of_the_bits() {
    let mut compared = 0;
    for mask in 0..=255u8 {
        for value in (0..=255u8).filter(|value| value & !mask == 0) {
            let rule = Rule::of(&[mask, value, 0]);
            for code in 0..=255u8 {
                let agrees = |bit: u8| code >> bit & 1 == value >> bit & 1;
                let literal = (0..8).all(|bit| mask >> bit & 1 == 0 || agrees(bit));
                assert_eq!(rule.matches(code), literal);
                compared += 1;
            }
        }
    }
    assert_eq!(compared, 6_561 * 256);
}

/// The other form of the smallest overlap: the least of the smallest common codes of two rules that
/// are not apart. Two values together have just the bits that both rules need.
fn least_overlap(rules: &[Rule]) -> Option<u8> {
    let pairs = (0..rules.len()).flat_map(|k| (0..k).map(move |i| (i, k)));
    let common = pairs.filter(|&(i, k)| !apart(&rules[i], &rules[k]));
    common.map(|(i, k)| rules[i].value | rules[k].value).min()
}

/// The other form of the smallest gap, among the codes whose bits from `bit` on are those of `code`:
/// none if some rule has them all, the first if no rule has any, else first those without the next
/// bit and then those with it.
fn least_gap(rules: &[Rule], bit: u32, code: u8) -> Option<u8> {
    let high = (0xFFu16 << bit) as u8;
    let meets = |rule: &&Rule| (rule.value ^ code) & rule.mask & high == 0;
    let here: Vec<Rule> = rules.iter().filter(meets).copied().collect();
    if here.iter().any(|rule| rule.mask & !high == 0) {
        return None;
    }
    if here.is_empty() {
        return Some(code);
    }
    let next = bit - 1;
    least_gap(&here, next, code).or_else(|| least_gap(&here, next, code | 1 << next))
}

/// The other form of the answer.
fn by_rules(rules: &[Rule]) -> Option<Bad> {
    let (gap, overlap) = (least_gap(rules, 8, 0), least_overlap(rules));
    let gap_first = match (gap, overlap) {
        (None, None) => return None,
        (Some(gap), Some(overlap)) => gap < overlap,
        (gap, _) => gap.is_some(),
    };
    if gap_first {
        return gap.map(|code| Bad::Gap { code });
    }
    let code = overlap?;
    let alone = Rule::of(&[255, code, 0]);
    let mut with = (0..rules.len()).filter(|&rule| !apart(&rules[rule], &alone));
    let (first, second) = (with.next()? as u8, with.next()? as u8);
    Some(Bad::Overlap {
        code,
        first,
        second,
    })
}

/// Both forms of the answer on some rules, and some lookups.
fn hold(sheet: &Sheet, rules: &[Rule]) -> Option<Bad> {
    let bad = by_rules(rules);
    assert_eq!(smallest_bad(rules), bad, "{rules:?}");
    assert_eq!(bad.is_none(), divides(rules), "{rules:?}");
    let table = table_of(rules);
    assert_eq!(rules_of(&table).as_deref(), Some(rules));
    let answer = bad.map_or(Checked::Good, Checked::Bad);
    assert_eq!(check(sheet, &table), Ok(answer));
    let last = rules[rules.len() - 1].value;
    hold_lookups(sheet, rules, &[0, last, 255]);
    bad
}

/// The lookups of some codes: the event of the only rule that matches, or what is bad.
fn hold_lookups(sheet: &Sheet, rules: &[Rule], codes: &[u8]) {
    let bad = by_rules(rules);
    for &code in codes {
        let expected = match bad {
            Some(bad) => Looked::Bad(bad),
            None => {
                let alone = Rule::of(&[255, code, 0]);
                let rule = rules.iter().find(|rule| !apart(rule, &alone));
                Looked::Event(rule.expect("a rule").event)
            }
        };
        assert_eq!(find(sheet, &table_of(rules), code), Ok(expected));
        if let Looked::Event(event) = expected {
            assert!(event < sheet.e);
        }
    }
}

/// Every code is looked up in good tables and in bad ones, where most codes have just one rule.
#[test]
fn every_code_is_looked_up() {
    let mut rng = Rng::new(126);
    let all: Vec<u8> = (0..=255).collect();
    let mut lone = 0;
    for round in 0..160 {
        let sheet = random_sheet(&mut rng);
        let rules = match round % 4 {
            0 => {
                let count = rule_count(&mut rng);
                good_rules(&mut rng, sheet.e, count)
            }
            _ => bad_rules(&mut rng, sheet.e, round / 4),
        };
        hold_lookups(&sheet, &rules, &all);
        if round % 4 != 0 {
            let single = |code: &&u8| bad_at(&rules, **code).is_none();
            lone += all.iter().filter(single).count();
        }
    }
    assert!(lone >= 10_000, "{lone}");
}

#[test]
fn both_forms_agree_on_all_small_tables() {
    let sheet = twelve();
    let masks = (0..8u8).map(|mask| mask << 5);
    let rules: Vec<Rule> = masks
        .flat_map(|mask| {
            let values = (0..8u8).map(|value| value << 5);
            let inside = values.filter(move |value| value & !mask == 0);
            inside.map(move |value| Rule::of(&[mask, value, value >> 5]))
        })
        .collect();
    assert_eq!(rules.len(), 27);
    let mut good = [0; 5];
    let mut count = |rules: &[Rule]| {
        let bad = smallest_bad(rules);
        assert_eq!(bad, by_rules(rules));
        assert_eq!(bad.is_none(), divides(rules));
        good[rules.len()] += usize::from(bad.is_none());
    };
    for &a in &rules {
        hold(&sheet, &[a]);
        count(&[a]);
        for &b in &rules {
            count(&[a, b]);
            for &c in &rules {
                count(&[a, b, c]);
            }
        }
    }
    // one rule: all codes; two: one of three bits, in either order; three: one of the two halves
    // is split at one of the two other bits, in any order
    assert_eq!(good[1..4], [1, 3 * 2, 3 * 2 * 2 * 6]);
}

#[test]
fn both_forms_agree_on_random_tables() {
    let mut rng = Rng::new(123);
    let (mut good, mut gaps, mut overlaps) = (0, 0, 0);
    for round in 0..8_000 {
        let sheet = random_sheet(&mut rng);
        let rules = match round % 4 {
            0 => {
                let count = rule_count(&mut rng);
                good_rules(&mut rng, sheet.e, count)
            }
            1 => changed_rules(&mut rng, sheet.e),
            2 => bad_rules(&mut rng, sheet.e, round / 4),
            _ => any_rules(&mut rng, sheet.e),
        };
        match hold(&sheet, &rules) {
            None => good += 1,
            Some(Bad::Gap { .. }) => gaps += 1,
            Some(Bad::Overlap { .. }) => overlaps += 1,
        }
    }
    let least = good.min(gaps).min(overlaps);
    assert!(least >= 1_500, "{good} {gaps} {overlaps}");
}

/// One change of a good table at a time: what stays good, and what does not.
#[test]
fn tables_near_a_good_one() {
    let mut rng = Rng::new(124);
    let mut narrow = 0;
    for round in 0..630 {
        let sheet = random_sheet(&mut rng);
        let count = 1 + round % 63;
        let good = good_rules(&mut rng, sheet.e, count);
        assert_eq!((good.len(), hold(&sheet, &good)), (count, None));
        let place = rng.below(count);
        let rule = good[place];
        // another event, and two rules exchanged
        let mut other = good.clone();
        other[place].event = rng.below(sheet.e.into()) as u8;
        other.swap(place, rng.below(count));
        assert_eq!(hold(&sheet, &other), None);
        for bit in (0..8).map(|bit| 1u8 << bit) {
            let mut other = good.clone();
            other[place].mask |= bit;
            if rule.mask & bit == 0 {
                // the half without the bit is kept, a gap at the first code of the other half; with
                // a rule for that half the table is good again
                let code = rule.value | bit;
                assert_eq!(hold(&sheet, &other), Some(Bad::Gap { code }));
                other.push(Rule {
                    mask: rule.mask | bit,
                    value: code,
                    event: 0,
                });
                assert_eq!(hold(&sheet, &other), None);
                narrow += 1;
                continue;
            }
            // a bit of the mask less: the rule overlaps with what has the other value of the bit
            other[place].mask &= !bit;
            other[place].value &= !bit;
            let least = rule.value ^ bit;
            let told = hold(&sheet, &other);
            assert!(
                matches!(told, Some(Bad::Overlap { code, .. }) if code == least),
                "{told:?}"
            );
            // a bit of the value changed: an overlap where it went, a gap where it was
            let mut other = good.clone();
            other[place].value ^= bit;
            match hold(&sheet, &other) {
                Some(Bad::Gap { code }) => assert_eq!((code, rule.value & bit), (rule.value, 0)),
                Some(Bad::Overlap { code, .. }) => {
                    assert_eq!((code, rule.value & bit), (least, bit));
                }
                None => panic!("good with a rule moved"),
            }
        }
        // a rule taken out, or there once more
        let mut other = good.clone();
        other.remove(place);
        if count > 1 {
            let code = rule.value;
            assert_eq!(hold(&sheet, &other), Some(Bad::Gap { code }));
        }
        let twice = [&good[..], &[rule]].concat();
        let overlap = Bad::Overlap {
            code: rule.value,
            first: place as u8,
            second: count as u8,
        };
        assert_eq!(hold(&sheet, &twice), Some(overlap));
    }
    assert!(narrow >= 1_000, "{narrow}");
}

#[test]
fn generators_do_what_they_are_for() {
    let mut rng = Rng::new(125);
    let (mut coded, mut lone, mut fit, mut most) = (0, [0; 4], 0, 0);
    for round in 0..3_000u64 {
        let sheet = random_sheet(&mut rng);
        coded += usize::from(!has_first_codes(&sheet));
        let e = sheet.e;
        let count = 1 + round as usize % MAX_RULES;
        let good = good_rules(&mut rng, e, count);
        assert_eq!(check(&sheet, &table_of(&good)), Ok(Checked::Good));
        assert_eq!(good.len(), count);
        let bad = bad_rules(&mut rng, e, round);
        assert!((1..=MAX_RULES).contains(&bad.len()));
        let codes: Vec<u8> = (0..=255)
            .filter(|&code| bad_at(&bad, code).is_some())
            .collect();
        let gaps = |code: &&u8| matching(&bad, **code).is_empty();
        let lacking = codes.iter().filter(gaps).count();
        if let [code] = codes[..] {
            let end = usize::from(code == 255);
            lone[lacking + 2 * end] += 1;
        }
        fit += usize::from(lacking > 0 && bad.iter().map(size).sum::<usize>() == 256);
        let first = codes.first().map_or(0, |&code| matching(&bad, code).len());
        most += usize::from(first == MAX_RULES);
        let refused = refused_rules(&mut rng, e, round);
        let number = if matches!(round % 11, 3..=5 | 10) {
            23
        } else {
            22
        };
        assert_eq!(check(&sheet, &table_of(&refused)), Err(number));
        let length = wrong_length(&mut rng, e, round);
        assert_eq!(check(&sheet, &length), Err(21), "{}", length.len());
        let changed = changed_rules(&mut rng, e);
        assert!(check(&sheet, &table_of(&changed)).is_ok());
    }
    assert!(coded >= 500 && fit >= 200 && most >= 20, "{coded} {fit}");
    assert!(lone.iter().all(|&count| count >= 80), "{lone:?}");
}

/// The text for a sheet, some rules and some words.
fn text(sheet: &Sheet, rules: &[[u8; 3]], words: &[&str]) -> String {
    let input = [encode(1, sheet), rules.concat()].concat();
    output(&call(input, words))
}

fn call(input: Vec<u8>, words: &[&str]) -> Call {
    let words = words.iter().map(|word| word.to_string()).collect();
    Call { input, words }
}

const HEAD: &str = "sheet 2 nodes 2 events\n";

#[test]
fn program_texts() {
    let two = two();
    let held = |rules: &[[u8; 3]], words: &[&str], rest: &str| {
        assert_eq!(text(&two, rules, words), format!("{HEAD}{rest}"));
    };
    held(&HALVES, &[], "table 2 rules\ngood\n");
    held(&[[0, 0, 1]], &[], "table 1 rules\ngood\n");
    held(&fours(64), &[], "table 64 rules\ngood\n");
    for (word, line) in [
        ("200", "code 200 event 1"),
        ("00200", "code 200 event 1"),
        ("0200", "code 200 event 1"),
        ("0", "code 0 event 0"),
        ("00000", "code 0 event 0"),
        ("127", "code 127 event 0"),
        ("128", "code 128 event 1"),
        ("255", "code 255 event 1"),
        ("00255", "code 255 event 1"),
    ] {
        held(&HALVES, &[word], &format!("table 2 rules\ngood\n{line}\n"));
    }
    for words in [&[][..], &["5"], &["200"], &["128"]] {
        held(&[[128, 0, 0]], words, "table 1 rules\ngap 128\n");
        held(&OVERLAP, words, "table 3 rules\noverlap 2 by 0 and 2\n");
        held(&[], words, "table refused 21\n");
        held(&[[0, 0, 0]; 65], words, "table refused 21\n");
        held(&[[128, 1, 9]], words, "table refused 22\n");
        held(&[[0, 0, 0], [128, 128, 2]], words, "table refused 23\n");
    }
}

#[test]
fn program_refusals() {
    let refused = "sheet refused 1 too short or its length field is wrong\n";
    let reference = &PROGRAM_INPUT[..19];
    for words in [&[][..], &["5"]] {
        for input in [&[][..], &[0; 3], &[0; 4], &reference[..18]] {
            assert_eq!(output(&call(input.to_vec(), words)), refused);
        }
        let most = vec![255; 5_000];
        assert_eq!(output(&call(most, words)), refused);
        for (input, rest) in [
            (reference.to_vec(), "table refused 21\n"),
            (PROGRAM_INPUT.to_vec(), "table refused 21\n"),
            ([reference, &[0; 2]].concat(), "table refused 21\n"),
            ([reference, &[0; 3]].concat(), "table 1 rules\ngood\n"),
            ([reference, &[0; 4]].concat(), "table refused 21\n"),
            ([reference, &[0; 5_000]].concat(), "table refused 21\n"),
        ] {
            let text = output(&call(input, words));
            assert!(text.starts_with(&format!("{HEAD}{rest}")), "{text}");
        }
        let version = [&[0, 0, 0, 15, 3][..], &reference[5..], &[0; 3]].concat();
        let text = output(&call(version, words));
        assert_eq!(text, "sheet refused 2 version is neither 1 nor 2\n");
    }
}

/// What is read ends at byte 4,096.
#[test]
fn program_inputs_are_cut() {
    let whole = |end: usize| {
        let field = (end as u32 - 4).to_be_bytes();
        let mut input = [&field[..], &[1, 13, 1]].concat();
        input.resize(end + 2, 0);
        output(&call(input, &[]))
    };
    let three = "sheet refused 3 events or nodes out of range\n";
    let one = "sheet refused 1 too short or its length field is wrong\n";
    for (end, expected) in [(4_095, three), (4_096, three), (4_097, one), (4_098, one)] {
        assert_eq!(whole(end), expected, "{end}");
    }
}

#[test]
fn wrong_use_prints_nothing() {
    let long = "0".repeat(100);
    let wrong: [&[&str]; 23] = [
        &[""],
        &["256"],
        &["00256"],
        &["999"],
        &["65535"],
        &["65536"],
        &["65736"],
        &["99999"],
        &["000200"],
        &["000000"],
        &[&long],
        &["x"],
        &["-1"],
        &["-0"],
        &["+1"],
        &[" 1"],
        &["1 "],
        &["1x"],
        &["0x1"],
        &["1", "1"],
        &["1", ""],
        &["", ""],
        &["1", "2", "3"],
    ];
    let good = [&PROGRAM_INPUT[..19], &[0; 3]].concat();
    for words in wrong {
        for input in [&good[..], &good[..19], &good[..18], &[]] {
            let text = output(&call(input.to_vec(), words));
            assert_eq!(text, "", "{words:?}");
        }
    }
}
