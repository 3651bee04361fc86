//! The variants in which faults are planted answer as the plain model does where no fault
//! is planted, and each fault of a probe list, of a run, of a verdict, of all verdicts, of a
//! comparison, of a count of scripts, of a rule table, of a walk, of the sheets of the bound and of
//! a text shows on some input. The random comparison with the library looks for the faults of every
//! call.

use model::comparison::{compare_into, Outcome, MAX_WORDS};
use model::examples::program_pair;
use model::keypad::{self, table_of};
use model::numbers::{
    bound_numbers, count_numbers, find_numbers, judged, keypad_numbers, listed, step_numbers,
    walk_numbers, Record, Suited,
};
use model::planted::bounds::{bound_with, BoundFault};
use model::planted::comparisons::{compare_with, CompareFault};
use model::planted::keypads::{
    check_with, find_numbers_with, find_with, keypad_numbers_with, KeypadFault,
};
use model::planted::probes::{fill_with, ProbeFault};
use model::planted::runs::{open_with, step_numbers_with, step_with, RunFault};
use model::planted::scripts::{count_with, ScriptFault};
use model::planted::suites::{suite_with, SuiteFault};
use model::planted::text;
use model::planted::text::bound_pair::BoundTextFault;
use model::planted::text::compare::TextFault;
use model::planted::text::keypad_check::KeypadTextFault;
use model::planted::text::live::LiveFault;
use model::planted::text::probe_list::ProbeTextFault;
use model::planted::text::script_counts::ScriptTextFault;
use model::planted::text::show::ShowFault;
use model::planted::text::suite::SuiteTextFault;
use model::planted::text::walk::WalkTextFault;
use model::planted::verdicts::{verdict_with, VerdictFault};
use model::planted::walks::{walk_with, WalkFault};
use model::probes::{fill, list};
use model::random::*;
use model::sheet::{check, Sheet};
use model::tests::{open, step, Report, Run};
use model::text::{
    bound_pair, compare, keypad_check, live, probe_list, script_counts, show, suite, walk,
};
use model::verdict::{verdict, verdicts};

#[test]
fn no_fault_in_probes() {
    let mut rng = Rng::new(81);
    for round in 0..1_500 {
        let sheet = if round % 4 == 0 {
            kept_twice(&mut rng)
        } else {
            random_sheet(&mut rng)
        };
        let node = rng.below(34) as u8;
        let lent: Vec<u16> = (0..rng.below(60)).map(|_| rng.word()).collect();
        let (mut plain, mut other) = (lent.clone(), lent);
        let answer = listed(fill(&sheet, node, &mut plain));
        let planted = fill_with(ProbeFault::None, &sheet, node, &mut other);
        assert_eq!((answer.refusal, answer.count), planted);
        assert_eq!(plain, other);
    }
}

#[test]
fn no_fault_in_runs() {
    let mut rng = Rng::new(82);
    for round in 0..3_000 {
        let sheet = if round % 4 == 0 {
            kept_twice(&mut rng)
        } else {
            random_sheet(&mut rng)
        };
        let (k, h) = (rng.pick(&[0, 1, 7, 1_023, 1_024, 65_535]), rng.word());
        let traces = rng.one_in(2);
        let opened = open(&sheet, k, h, traces);
        assert_eq!(opened, open_with(RunFault::None, &sheet, k, h, traces));
        let run = random_record(&mut rng, &sheet);
        let report = random_report(&mut rng, &sheet);
        let stepped = step(&sheet, &run, report);
        assert_eq!(stepped, step_with(RunFault::None, &sheet, &run, report));
        let (record, code) = in_numbers(&mut rng, &run, report);
        assert_eq!(
            step_numbers(&sheet, &record, code),
            step_numbers_with(RunFault::None, &sheet, &record, code)
        );
    }
}

/// A record with any number in place of a flag that is true, and the code of a report.
fn in_numbers(rng: &mut Rng, run: &Run, report: Report) -> (Record, u16) {
    let record = Record {
        traces: u8::from(run.trace_only) * rng.pick(&[1, 1, 2, 128, 255]),
        ended: u8::from(run.ended) * rng.pick(&[1, 1, 2, 128, 255]),
        ..Record::ZERO.after(run)
    };
    let code = match report {
        Report::Event(event) => u16::from(event),
        Report::Blocked => rng.pick(&[256, 65_535]),
    };
    (record, code)
}

/// A sheet, refused or not, and mostly one of its nodes.
fn sheet_and_node(rng: &mut Rng, round: usize) -> (Sheet, u8) {
    let sheet = match round % 8 {
        0 => kept_twice(rng),
        1 => full_sheet(rng),
        2 | 3 => mixed_sheet(rng),
        _ => random_sheet(rng),
    };
    let node = match rng.below(6) {
        0 => sheet.n,
        1 => rng.below(34) as u8,
        _ => rng.below((sheet.n as usize).clamp(1, 32)) as u8,
    };
    (sheet, node)
}

#[test]
fn every_fault_of_a_probe_list_shows() {
    let mut rng = Rng::new(99);
    let mut hidden = ProbeFault::ALL.to_vec();
    for round in 0..800 {
        let (sheet, node) = sheet_and_node(&mut rng, round);
        let count = list(&sheet, node, usize::MAX).map_or(0, |list| list.len());
        let lent = vec![7; length_around(&mut rng, count)];
        let played = |fault| {
            let mut list = lent.clone();
            (fill_with(fault, &sheet, node, &mut list), list)
        };
        let plain = played(ProbeFault::None);
        hidden.retain(|&fault| played(fault) == plain);
    }
    assert_eq!(hidden, []);
}

#[test]
fn every_fault_of_a_run_shows() {
    let mut rng = Rng::new(100);
    let mut hidden = RunFault::ALL.to_vec();
    for round in 0..2_000 {
        let (sheet, _) = sheet_and_node(&mut rng, round);
        let (k, h) = (rng.pick(&[0, 1, 1_023, 1_024, 65_535]), rng.word());
        let traces = rng.one_in(3);
        let run = random_record(&mut rng, &sheet);
        let report = random_report(&mut rng, &sheet);
        let (record, code) = in_numbers(&mut rng, &run, report);
        let played = |fault| {
            let opened = open_with(fault, &sheet, k, h, traces);
            (opened, step_numbers_with(fault, &sheet, &record, code))
        };
        let plain = played(RunFault::None);
        hidden.retain(|&fault| played(fault) == plain);
    }
    assert_eq!(hidden, []);
}

/// A pair; in some rounds a sheet of it is refused, or both are, or it has other events or codes.
fn two_sheets(rng: &mut Rng, round: usize) -> (Sheet, Sheet) {
    let (reference, device) = match round % 4 {
        0 => deep_pair(rng),
        1 => small_pair(rng),
        2 if round % 8 == 2 => refusing_pair(rng),
        _ => pair(rng),
    };
    match round % 16 {
        3 => (kept_twice(rng), kept_twice(rng)),
        6 => (kept_twice(rng), device),
        9 => (reference, kept_twice(rng)),
        12 => (reference, random_sheet(rng)),
        2 | 15 => (reference, recoded(rng, &device)),
        _ => (reference, device),
    }
}

/// A work list and a trace list with any content, of lengths around their limits.
fn lists_around(rng: &mut Rng, reference: &Sheet, device: &Sheet) -> (Vec<u16>, Vec<u8>) {
    let pairs = (reference.n as usize * device.n as usize).max(1);
    let words = work_length(rng, pairs);
    let places = match rng.one_in(2) {
        true => length_around(rng, pairs - 1),
        false => pairs - 1,
    };
    let work = (0..words).map(|_| rng.word()).collect();
    let list = (0..places).map(|_| rng.byte()).collect();
    (work, list)
}

#[test]
fn no_fault_in_verdicts_and_comparisons() {
    let mut rng = Rng::new(83);
    for round in 0..600 {
        let (reference, device) = two_sheets(&mut rng, round);
        let traces = rng.one_in(2);
        let k = rng.pick(&[0, 1, 2, 3, 10, 40, 1_024]);
        assert_eq!(
            verdict(&reference, &device, k, traces),
            verdict_with(VerdictFault::None, &reference, &device, k, traces)
        );
        let (mut work, mut list) = lists_around(&mut rng, &reference, &device);
        let (mut work_other, mut list_other) = (work.clone(), list.clone());
        let plain = compare_into(&reference, &device, traces, &mut work, &mut list);
        let other = compare_with(
            CompareFault::None,
            &reference,
            &device,
            traces,
            &mut work_other,
            &mut list_other,
        );
        assert_eq!(plain, other);
        assert_eq!((work, list), (work_other, list_other));
    }
}

#[test]
fn no_fault_in_all_verdicts() {
    let mut rng = Rng::new(89);
    for round in 0..400 {
        let (reference, device) = two_sheets(&mut rng, round);
        let traces = rng.one_in(2);
        let tests = u16::from(reference.n) * u16::from(device.n);
        let mut list = vec![0; tests.into()];
        let answer = suite_with(SuiteFault::None, &reference, &device, traces, &mut list);
        match verdicts(&reference, &device, tests, traces) {
            Ok(all) => {
                let kinds: Vec<u8> = all.iter().map(|&one| judged(Ok(one)).kind).collect();
                let (refusal, count) = (0, tests);
                assert_eq!((answer, list), (Suited { refusal, count }, kinds));
            }
            Err(refusal) => assert_eq!(answer, Suited { refusal, count: 0 }),
        }
    }
}

/// Two sheets and a length of scripts, which lead to counts of every size or are refused.
fn counted_scripts(rng: &mut Rng, round: usize) -> (Sheet, Sheet, u16) {
    let (reference, device) = match round % 3 {
        0 => full_pair(rng),
        _ => two_sheets(rng, round),
    };
    (reference, device, script_length(rng))
}

#[test]
fn no_fault_in_scripts() {
    let mut rng = Rng::new(96);
    for round in 0..1_500 {
        let (reference, device, length) = counted_scripts(&mut rng, round);
        let plain = count_numbers(&reference, &device, length);
        let planted = count_with(ScriptFault::None, &reference, &device, length);
        assert_eq!(plain, planted);
    }
}

#[test]
fn every_fault_of_a_count_of_scripts_shows() {
    let mut rng = Rng::new(97);
    let mut hidden = ScriptFault::ALL.to_vec();
    for round in 0..1_500 {
        let (reference, device, length) = counted_scripts(&mut rng, round);
        let played = |fault| count_with(fault, &reference, &device, length);
        let plain = played(ScriptFault::None);
        hidden.retain(|&fault| played(fault) == plain);
    }
    assert_eq!(hidden, []);
}

/// A sheet, at times one that is refused, a table of each kind in turn and a code.
fn asked_table(rng: &mut Rng, round: u64) -> (Sheet, Vec<u8>, u8) {
    let sheet = match round % 7 {
        0 => kept_twice(rng),
        _ => random_sheet(rng),
    };
    let e = sheet.e.clamp(1, 12);
    let table = match round % 5 {
        0 => table_of(&refused_rules(rng, e, round / 5)),
        1 => wrong_length(rng, e, round / 5),
        2 => table_of(&bad_rules(rng, e, round / 5)),
        _ => rule_table(rng, e),
    };
    let code = asked_code(rng, &table);
    (sheet, table, code)
}

#[test]
fn no_fault_in_keypads() {
    let mut rng = Rng::new(127);
    for round in 0..2_000 {
        let (sheet, table, code) = asked_table(&mut rng, round);
        let none = KeypadFault::None;
        let plain = keypad::check(&sheet, &table);
        assert_eq!(plain, check_with(none, &sheet, &table));
        let plain = keypad_numbers(&sheet, &table);
        assert_eq!(plain, keypad_numbers_with(none, &sheet, &table));
        let plain = keypad::find(&sheet, &table, code);
        assert_eq!(plain, find_with(none, &sheet, &table, code));
        let plain = find_numbers(&sheet, &table, code);
        assert_eq!(plain, find_numbers_with(none, &sheet, &table, code));
    }
}

/// Each fault shows in a lookup; in a check too, if it can.
#[test]
fn every_fault_of_a_rule_table_shows() {
    let mut rng = Rng::new(128);
    let in_check = KeypadFault::ALL.iter().filter(|fault| fault.in_check());
    let mut hidden: Vec<KeypadFault> = in_check.copied().collect();
    let mut hidden_lookups = KeypadFault::ALL.to_vec();
    for round in 0..3_000 {
        let (sheet, table, code) = asked_table(&mut rng, round);
        let played = |fault| keypad_numbers_with(fault, &sheet, &table);
        let plain = played(KeypadFault::None);
        hidden.retain(|&fault| played(fault) == plain);
        let others = KeypadFault::ALL.iter().filter(|fault| !fault.in_check());
        assert!(others.copied().all(|fault| played(fault) == plain));
        let played = |fault| find_numbers_with(fault, &sheet, &table, code);
        let plain = played(KeypadFault::None);
        hidden_lookups.retain(|&fault| played(fault) == plain);
    }
    assert_eq!((hidden, hidden_lookups), (vec![], vec![]));
}

/// A sheet, at times one that is refused, a seed, a wish and a lent list with any content.
fn wished_walk(rng: &mut Rng, round: usize) -> (Sheet, u32, u16, Vec<u8>) {
    let sheet = match round % 6 {
        0 => kept_twice(rng),
        _ => walk_sheet(rng),
    };
    let (seed, wish) = (walk_seed(rng), walk_wish(rng));
    let lent = (0..walk_places(rng, wish)).map(|_| rng.byte()).collect();
    (sheet, seed, wish, lent)
}

#[test]
fn no_fault_in_walks() {
    let mut rng = Rng::new(148);
    for round in 0..1_500 {
        let (sheet, seed, wish, mut lent) = wished_walk(&mut rng, round);
        let mut other = lent.clone();
        let plain = walk_numbers(&sheet, seed, wish, &mut lent);
        let planted = walk_with(WalkFault::None, &sheet, seed, wish, &mut other);
        assert_eq!((plain, lent), (planted, other));
    }
}

#[test]
fn every_fault_of_a_walk_shows() {
    let mut rng = Rng::new(149);
    let mut hidden = WalkFault::ALL.to_vec();
    for round in 0..1_500 {
        let (sheet, seed, wish, lent) = wished_walk(&mut rng, round);
        let played = |fault| {
            let mut list = lent.clone();
            (walk_with(fault, &sheet, seed, wish, &mut list), list)
        };
        let plain = played(WalkFault::None);
        hidden.retain(|&fault| played(fault) == plain);
    }
    assert_eq!(hidden, []);
}

/// Two numbers of nodes, at times out of range, and two lent lists with any content.
fn lent_lists(rng: &mut Rng) -> (u8, u8, Vec<u8>, Vec<u8>) {
    let (p, q) = (bound_count(rng), bound_count(rng));
    let (first, second) = bound_places(rng, p, q);
    let reference = (0..first).map(|_| rng.byte()).collect();
    let device = (0..second).map(|_| rng.byte()).collect();
    (p, q, reference, device)
}

#[test]
fn no_fault_in_bounds() {
    let mut rng = Rng::new(162);
    for _ in 0..3_000 {
        let (p, q, mut mine, mut theirs) = lent_lists(&mut rng);
        let (mut other, mut others) = (mine.clone(), theirs.clone());
        let plain = bound_numbers(p, q, &mut mine, &mut theirs);
        let planted = bound_with(BoundFault::None, p, q, &mut other, &mut others);
        assert_eq!(plain, planted);
        assert!((mine, theirs) == (other, others), "{p} {q}");
    }
}

#[test]
fn every_fault_of_a_bound_shows() {
    let mut rng = Rng::new(163);
    let mut hidden = BoundFault::ALL.to_vec();
    for _ in 0..3_000 {
        let (p, q, mine, theirs) = lent_lists(&mut rng);
        let played = |fault| {
            let (mut mine, mut theirs) = (mine.clone(), theirs.clone());
            let answer = bound_with(fault, p, q, &mut mine, &mut theirs);
            (answer, mine, theirs)
        };
        let plain = played(BoundFault::None);
        hidden.retain(|&fault| played(fault) == plain);
    }
    assert_eq!(hidden, []);
}

#[test]
fn every_fault_of_a_verdict_shows() {
    let mut rng = Rng::new(94);
    let mut hidden = VerdictFault::ALL.to_vec();
    for round in 0..4_000 {
        let (reference, device) = two_sheets(&mut rng, round);
        let traces = rng.one_in(3);
        let k = rng.pick(&[0, 1, 2, 3, 10, 40, 100, 1_024]);
        let played = |fault| verdict_with(fault, &reference, &device, k, traces);
        let plain = played(VerdictFault::None);
        hidden.retain(|&fault| played(fault) == plain);
    }
    assert_eq!(hidden, []);
}

#[test]
fn every_fault_of_all_verdicts_shows() {
    let mut rng = Rng::new(95);
    let mut hidden = SuiteFault::ALL.to_vec();
    for round in 0..600 {
        let (reference, device) = two_sheets(&mut rng, round);
        let traces = rng.one_in(3);
        let tests = usize::from(reference.n) * usize::from(device.n);
        let lent: Vec<u8> = vec![7; length_around(&mut rng, tests)];
        let played = |fault| {
            let mut list = lent.clone();
            let answer = suite_with(fault, &reference, &device, traces, &mut list);
            (answer, list)
        };
        let plain = played(SuiteFault::None);
        hidden.retain(|&fault| played(fault) == plain);
    }
    assert_eq!(hidden, []);
}

#[test]
fn every_fault_of_a_comparison_shows() {
    let mut rng = Rng::new(86);
    let mut hidden = CompareFault::ALL.to_vec();
    for round in 0..6_000 {
        let (reference, device) = two_sheets(&mut rng, round);
        let traces = rng.one_in(3);
        let lent = lists_around(&mut rng, &reference, &device);
        let played = |fault| {
            let (mut work, mut list) = lent.clone();
            let answer = compare_with(fault, &reference, &device, traces, &mut work, &mut list);
            (answer, work, list)
        };
        let plain = played(CompareFault::None);
        hidden.retain(|&fault| played(fault) == plain);
    }
    assert_eq!(hidden, []);
}

/// Three words a pair show between 2·p·q and 3·p·q: 12 and 18 words for this pair.
#[test]
fn three_words_a_pair_show() {
    let (reference, device) = program_pair();
    let played = |fault, words: usize| {
        let (mut work, mut list) = (vec![7; words], vec![7; 5]);
        let answer = compare_with(fault, &reference, &device, false, &mut work, &mut list);
        let left = work.iter().filter(|&&word| word != 0).count();
        (answer.err(), left)
    };
    for words in [12, 13, 17, 18, 20] {
        let left = words - 12;
        assert_eq!(played(CompareFault::None, words), (None, left));
        let cleared = played(CompareFault::WorkThreeCleared, words);
        assert_eq!(cleared, (None, words.saturating_sub(18)));
        let asked = played(CompareFault::WorkThreeAsked, words);
        let refused = (Some(12), words);
        assert_eq!(asked, if words < 18 { refused } else { (None, left) });
    }
}

/// The bytes of a pair back to back.
fn both_spelled(rng: &mut Rng, pair: fn(&mut Rng) -> (Sheet, Sheet)) -> Vec<u8> {
    let (reference, device) = pair(rng);
    [spelled(rng, &reference), spelled(rng, &device)].concat()
}

#[test]
fn every_fault_of_the_texts_of_two_sheets_shows() {
    let mut rng = Rng::new(84);
    let mut hidden = TextFault::ALL.to_vec();
    let mut hidden_suite = SuiteTextFault::ALL.to_vec();
    for round in 0..3_000 {
        let input = match round % 6 {
            0 => both_spelled(&mut rng, deep_pair),
            3 => both_spelled(&mut rng, refusing_pair),
            _ => program_input(&mut rng),
        };
        let plain = compare::output(&input);
        assert_eq!(plain, text::compare::output_with(TextFault::None, &input));
        hidden.retain(|&fault| text::compare::output_with(fault, &input) == plain);
        let plain = suite::output(&input);
        let planted = text::suite::output_with(SuiteTextFault::None, &input);
        assert_eq!(plain, planted);
        hidden_suite.retain(|&fault| text::suite::output_with(fault, &input) == plain);
    }
    assert_eq!((hidden, hidden_suite), (vec![], vec![]));
}

#[test]
fn every_fault_of_the_texts_of_one_sheet_shows() {
    let mut rng = Rng::new(87);
    let mut hidden = ShowFault::ALL.to_vec();
    let mut hidden_list = ProbeTextFault::ALL.to_vec();
    for round in 0..1_500 {
        let input = sheet_input(&mut rng, round);
        let plain = show::output(&input);
        assert_eq!(plain, text::show::output_with(ShowFault::None, &input));
        hidden.retain(|&fault| text::show::output_with(fault, &input) == plain);
        let plain = probe_list::output(&input);
        let planted = text::probe_list::output_with(ProbeTextFault::None, &input);
        assert_eq!(plain, planted);
        hidden_list.retain(|&fault| text::probe_list::output_with(fault, &input) == plain);
    }
    assert_eq!((hidden, hidden_list), (vec![], vec![]));
}

#[test]
fn every_fault_of_a_live_text_shows() {
    let mut rng = Rng::new(88);
    let mut hidden = LiveFault::ALL.to_vec();
    for round in 0..4_000 {
        let call = live_call(&mut rng, round);
        let plain = live::output(&call);
        assert_eq!(plain, text::live::output_with(LiveFault::None, &call));
        hidden.retain(|&fault| text::live::output_with(fault, &call) == plain);
    }
    assert_eq!(hidden, []);
}

#[test]
fn every_fault_of_the_text_of_scripts_shows() {
    let mut rng = Rng::new(98);
    let mut hidden = ScriptTextFault::ALL.to_vec();
    for round in 0..2_000 {
        let call = script_call(&mut rng, round);
        let plain = script_counts::output(&call);
        let planted = text::script_counts::output_with(ScriptTextFault::None, &call);
        assert_eq!(plain, planted);
        hidden.retain(|&fault| text::script_counts::output_with(fault, &call) == plain);
    }
    assert_eq!(hidden, []);
}

#[test]
fn every_fault_of_the_text_of_keypads_shows() {
    let mut rng = Rng::new(129);
    let mut hidden = KeypadTextFault::ALL.to_vec();
    for round in 0..3_000 {
        let call = keypad_call(&mut rng, round);
        let plain = keypad_check::output(&call);
        let planted = text::keypad_check::output_with(KeypadTextFault::None, &call);
        assert_eq!(plain, planted);
        hidden.retain(|&fault| text::keypad_check::output_with(fault, &call) == plain);
    }
    assert_eq!(hidden, []);
}

#[test]
fn every_fault_of_the_text_of_walks_shows() {
    let mut rng = Rng::new(150);
    let mut hidden = WalkTextFault::ALL.to_vec();
    for round in 0..3_000 {
        let call = walk_call(&mut rng, round);
        let plain = walk::output(&call);
        let planted = text::walk::output_with(WalkTextFault::None, &call);
        assert_eq!(plain, planted);
        hidden.retain(|&fault| text::walk::output_with(fault, &call) == plain);
    }
    assert_eq!(hidden, []);
}

#[test]
fn every_fault_of_the_text_of_bounds_shows() {
    let mut rng = Rng::new(164);
    let mut hidden = BoundTextFault::ALL.to_vec();
    for round in 0..6_400 {
        let words = bound_words(&mut rng, round);
        let plain = bound_pair::output(&words);
        let planted = text::bound_pair::output_with(BoundTextFault::None, &words);
        assert_eq!(plain, planted);
        hidden.retain(|&fault| text::bound_pair::output_with(fault, &words) == plain);
    }
    assert_eq!(hidden, []);
}

#[test]
fn deep_pairs_are_accepted_and_go_far() {
    let mut rng = Rng::new(85);
    let (mut far, mut refines) = (0, 0);
    for _ in 0..400 {
        let (reference, device) = deep_pair(&mut rng);
        assert_eq!((check(&reference), check(&device)), (0, 0));
        assert_eq!((reference.e, reference.codes), (device.e, device.codes));
        let (mut work, mut list) = (vec![0; MAX_WORDS], vec![0; 1_023]);
        match compare_into(&reference, &device, false, &mut work, &mut list) {
            Ok(Outcome::Violates { d, .. }) => far += usize::from(d >= 100),
            Ok(Outcome::Refines { .. }) => refines += 1,
            Err(number) => panic!("refused {number}"),
        }
    }
    assert!(far >= 150 && refines >= 40, "{far} {refines}");
}

#[test]
fn a_flag_that_stays_keeps_its_number() {
    let record = Record {
        traces: 7,
        ended: 0,
        ..Record::ZERO
    };
    let mut run = record.run();
    assert_eq!(record.after(&run), record);
    run.ended = true;
    let after = record.after(&run);
    assert_eq!((after.traces, after.ended), (7, 1));
}
