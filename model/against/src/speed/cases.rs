//! The cases that are measured: each call on its worst case, and the growth of the two calls
//! on pairs. The two sides are held together on a case before it is measured.

use std::hint::black_box;

use model::comparison::{MAX_WORDS, WORDS_A_PAIR};
use model::keypad::{MAX_RULES, RULE_BYTES};
use model::load::MAX_WALK;
use model::numbers::{Record, EVENT, GOOD, OVERLAP, REFUSAL, STRAY};
use model::scripts::MAX_SCRIPT;
use model::sheet::{encode, Sheet, MAX_BYTES, MAX_NODES};
use model::tests::MAX_TEST;

use super::inputs::{crowded, dense, fours, last_bad, longest, refusing, sparse, spread};
use super::tables::Tables;
use super::{bounds, keypads, pairs, runs, same, scripts, tables, walks};
use crate::edge;

/// One side of a case: a call whose answer nobody needs.
type Call = Box<dyn FnMut()>;

/// A case: the call and the case in words, and both sides.
pub struct Case {
    pub call: &'static str,
    pub case: String,
    pub ours: Call,
    pub plain: Call,
}

/// A call whose answer counts as used.
fn used<T>(mut call: impl FnMut() -> T + 'static) -> Call {
    Box::new(move || {
        black_box(call());
    })
}

/// Each call on its worst case.
pub fn worst() -> Vec<Case> {
    let sheet = crowded();
    let mut cases = sheets(sheet);
    cases.push(listing(sheet));
    cases.extend(reports(sheet));
    let (reference, device) = dense(32);
    cases.push(verdict(
        "refining, full layers",
        reference,
        device,
        MAX_TEST,
    ));
    cases.push(suite("refining, full layers", reference, device));
    cases.push(comparison("refining", reference, device));
    let (reference, device) = longest(32);
    cases.push(verdict("violating, d 1023", reference, device, MAX_TEST));
    let last = same::compare((&reference, &device), 0, (MAX_WORDS, 1_023));
    assert_eq!((last.kind, last.d, last.cleared), (STRAY, 1_023, 1_023));
    cases.push(comparison("violating, d 1023", reference, device));
    cases.push(naming());
    cases.push(counting("all there", spread(false)));
    cases.push(counting("a quarter missing", spread(true)));
    cases.extend(rule_table("good", sheet, fours()));
    cases.extend(rule_table("bad at 255", sheet, last_bad()));
    cases.push(walking("12 initials", spread(false).0));
    cases.push(walking("2 initials", sparse()));
    cases.push(bounding());
    cases
}

/// Reading and checking the largest sheet.
fn sheets(sheet: Sheet) -> Vec<Case> {
    let bytes = encode(2, &sheet);
    assert_eq!(bytes.len(), MAX_BYTES);
    same::read(&bytes);
    same::check(&sheet);
    let copy = bytes.clone();
    let tables = Tables::of(&sheet);
    let case = || format!("{MAX_BYTES} bytes");
    vec![
        Case {
            call: "read",
            case: case(),
            ours: used(move || edge::read(black_box(&bytes))),
            plain: used(move || tables::read(black_box(&copy))),
        },
        Case {
            call: "check",
            case: case(),
            ours: used(move || edge::check(black_box(&sheet))),
            plain: used(move || tables::check(black_box(&tables))),
        },
    ]
}

/// The probe list of a node with 12 events and 16 acceptances.
fn listing(sheet: Sheet) -> Case {
    let count = same::list(&sheet, 31, 4_096);
    let tables = Tables::of(&sheet);
    let (mut out, mut other) = (vec![0; 4_096], vec![0; 4_096]);
    Case {
        call: "list",
        case: format!("12 events, 16 sets, {count} probes"),
        ours: used(move || edge::list(black_box(&sheet), 31, &mut out)),
        plain: used(move || runs::list(black_box(&tables), 31, &mut other)),
    }
}

/// An opening and reports that offer the last probe of such a node: the opening of test 0,
/// an event that leads to depth k, by value and in place, and "blocked" at depth k. Beside them
/// "blocked" below depth k in a trace-only run, which is inconclusive.
fn reports(sheet: Sheet) -> Vec<Case> {
    let h = same::list(&sheet, 31, 4_096) - 1;
    same::open(&sheet, 0, h, 0);
    let tables = Tables::of(&sheet);
    let again = tables.clone();
    let before = Record {
        k: MAX_TEST,
        h,
        node: 30,
        depth: MAX_TEST - 1,
        ..Record::ZERO
    };
    let last = Record {
        node: 31,
        depth: MAX_TEST,
        ..before
    };
    let early = Record {
        traces: 1,
        ..before
    };
    same::step(&sheet, &before, 0);
    same::step(&sheet, &last, 256);
    same::step(&sheet, &early, 256);
    assert_eq!(edge::step(&sheet, &early, 256).answer.kind, 5);
    vec![
        Case {
            call: "open",
            case: "k 0, the last probe".to_string(),
            ours: used(move || edge::open(black_box(&sheet), 0, h, 0)),
            plain: used(move || runs::open(black_box(&again), 0, h, 0)),
        },
        stepping("an event to depth 1023", sheet, tables.clone(), before, 0),
        stepping("blocked at depth 1023", sheet, tables.clone(), last, 256),
        stepping(
            "blocked at depth 1022, trace-only",
            sheet,
            tables.clone(),
            early,
            256,
        ),
        in_place("an event to depth 1023", sheet, tables, before, 0),
    ]
}

/// A report on a record by value.
fn stepping(case: &str, sheet: Sheet, tables: Tables, run: Record, code: u16) -> Case {
    Case {
        call: "step",
        case: case.to_string(),
        ours: used(move || edge::step(black_box(&sheet), &run, code)),
        plain: used(move || runs::step(black_box(&tables), &run, code)),
    }
}

/// A report on a record in place.
fn in_place(case: &str, sheet: Sheet, tables: Tables, run: Record, code: u16) -> Case {
    let ours = move || {
        let mut run = run;
        (edge::report(&mut run, black_box(&sheet), code), run)
    };
    let plain = move || {
        let mut run = run;
        (runs::report(&mut run, black_box(&tables), code), run)
    };
    Case {
        call: "report",
        case: case.to_string(),
        ours: used(ours),
        plain: used(plain),
    }
}

/// A verdict on two sheets.
fn verdict(case: &str, reference: Sheet, device: Sheet, k: u16) -> Case {
    same::judge(&reference, &device, k, 0);
    let (mine, theirs) = (Tables::of(&reference), Tables::of(&device));
    let (p, q) = (reference.n, device.n);
    Case {
        call: "judge",
        case: format!("k {k}, {p} x {q} {case}"),
        ours: used(move || edge::judge(black_box(&reference), &device, k, 0)),
        plain: used(move || pairs::judge(black_box(&mine), &theirs, k, 0)),
    }
}

/// The verdicts on all tests of two sheets, with a list that is just long enough.
fn suite(case: &str, reference: Sheet, device: Sheet) -> Case {
    let (p, q) = (reference.n, device.n);
    let tests = p as usize * q as usize;
    same::judge_all(&reference, &device, 0, tests);
    let (mine, theirs) = (Tables::of(&reference), Tables::of(&device));
    let (mut out, mut other) = (vec![0; tests], vec![0; tests]);
    Case {
        call: "judge_all",
        case: format!("{p} x {q} {case}"),
        ours: used(move || edge::judge_all(black_box(&reference), &device, 0, &mut out)),
        plain: used(move || pairs::judge_all(black_box(&mine), &theirs, 0, &mut other)),
    }
}

/// A comparison of two sheets, with lists that are just long enough.
fn comparison(case: &str, reference: Sheet, device: Sheet) -> Case {
    let (p, q) = (reference.n, device.n);
    let pairs = p as usize * q as usize;
    let (words, places) = (WORDS_A_PAIR * pairs, pairs - 1);
    same::compare((&reference, &device), 0, (words, places));
    let (mine, theirs) = (Tables::of(&reference), Tables::of(&device));
    let (mut work, mut trace) = (vec![0; words], vec![0; places]);
    let (mut other_work, mut other_trace) = (work.clone(), trace.clone());
    let ours = move || edge::compare(black_box(&reference), &device, 0, &mut work, &mut trace);
    let plain = move || {
        let lists = (&mut other_work, &mut other_trace);
        pairs::compare(black_box(&mine), &theirs, 0, lists.0, lists.1)
    };
    Case {
        call: "compare",
        case: format!("{p} x {q} {case}"),
        ours: used(ours),
        plain: used(plain),
    }
}

/// A comparison that refuses the last probe of a node with 12 events and 16 acceptances.
fn naming() -> Case {
    let (reference, device) = refusing();
    let list = runs::probes_of(reference.row(0).acceptances(), reference.e);
    let found = same::compare((&reference, &device), 0, (MAX_WORDS, 1_023));
    assert_eq!((found.kind, found.d, device.row(0).c), (REFUSAL, 0, 16));
    assert_eq!(Some(&found.probe), list.last());
    let case = format!("refusing, the last of {} probes", list.len());
    comparison(&case, reference, device)
}

/// The scripts of 16 events, counted over all pairs of nodes of two sheets.
fn counting(case: &str, (reference, device): (Sheet, Sheet)) -> Case {
    let answer = same::count(&reference, &device, MAX_SCRIPT);
    assert_eq!((answer.refusal, answer.walked == 0), (0, false));
    let (mine, theirs) = (Tables::of(&reference), Tables::of(&device));
    let (p, q) = (reference.n, device.n);
    Case {
        call: "count",
        case: format!("L {MAX_SCRIPT}, {p} x {q}, {case}"),
        ours: used(move || edge::count(black_box(&reference), &device, MAX_SCRIPT)),
        plain: used(move || scripts::count(black_box(&mine), &theirs, MAX_SCRIPT)),
    }
}

/// The check of a table of 64 rules on the largest sheet, and the lookup of code 255.
fn rule_table(case: &str, sheet: Sheet, table: Vec<u8>) -> Vec<Case> {
    let answer = same::keypad(&sheet, &table);
    let found = same::find(&sheet, &table, 255);
    assert_eq!(table.len(), RULE_BYTES * MAX_RULES);
    match answer.kind {
        GOOD => assert_eq!((found.kind, found.event), (EVENT, table[table.len() - 1])),
        _ => assert_eq!(
            (answer.kind, answer.code, answer.second),
            (OVERLAP, 255, 63)
        ),
    }
    let tables = Tables::of(&sheet);
    let (again, copy, other, copied) =
        (tables.clone(), table.clone(), table.clone(), table.clone());
    vec![
        Case {
            call: "keypad",
            case: format!("{MAX_RULES} rules, {case}"),
            ours: used(move || edge::keypad(black_box(&sheet), black_box(&table))),
            plain: used(move || keypads::keypad(black_box(&tables), black_box(&copy))),
        },
        Case {
            call: "find",
            case: format!("255 in {MAX_RULES} rules, {case}"),
            ours: used(move || edge::find(black_box(&sheet), black_box(&other), 255)),
            plain: used(move || keypads::find(black_box(&again), black_box(&copied), 255)),
        },
    ]
}

/// A walk of 4,096 events, with a list that is just long enough.
fn walking(case: &str, sheet: Sheet) -> Case {
    let (seed, places) = (1, usize::from(MAX_WALK));
    let answer = same::walk(&sheet, seed, MAX_WALK, places);
    assert_eq!((answer.refusal, answer.length), (0, MAX_WALK));
    let tables = Tables::of(&sheet);
    let (mut out, mut other) = (vec![0; places], vec![0; places]);
    Case {
        call: "walk",
        case: format!("{MAX_WALK} events, {} nodes, {case}", sheet.n),
        ours: used(move || edge::walk(black_box(&sheet), seed, MAX_WALK, &mut out)),
        plain: used(move || walks::walk(black_box(&tables), seed, MAX_WALK, &mut other)),
    }
}

/// The two sheets of the bound with 32 nodes each, with lists that are just long enough.
fn bounding() -> Case {
    let n = MAX_NODES as u8;
    let (first, second) = (229, 167);
    let answer = same::bound(n, n, (first, second));
    let lengths = (usize::from(answer.reference), usize::from(answer.device));
    assert_eq!((answer.refusal, lengths), (0, (first, second)));
    let (mut mine, mut theirs) = (vec![0; first], vec![0; second]);
    let (mut other, mut others) = (mine.clone(), theirs.clone());
    Case {
        call: "bound",
        case: format!("p {n}, q {n}, {first} and {second} bytes"),
        ours: used(move || edge::bound(black_box(n), black_box(n), &mut mine, &mut theirs)),
        plain: used(move || bounds::bound(black_box(n), black_box(n), &mut other, &mut others)),
    }
}

/// The growth over p q: for each of some sizes the pairs, the comparison and the verdict on
/// test p q - 1 of a pair that refines.
pub fn growth() -> Vec<(usize, Case, Case)> {
    let case = |n: u8| {
        let (reference, device) = dense(n);
        let pairs = n as usize * n as usize;
        let verdict = verdict("refining", reference, device, pairs as u16 - 1);
        (pairs, comparison("refining", reference, device), verdict)
    };
    [4, 8, 16, 32].into_iter().map(case).collect()
}
