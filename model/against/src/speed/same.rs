//! The library and plain Rust on the same inputs: each answer and the contents of each lent
//! list must be equal. A difference ends the program.

use model::comparison::WORDS_A_PAIR;
use model::numbers::{Bounded, Compared, Found, Keypad, Record, Scripts, Walked};
use model::random::{
    asked_code, bound_count, bound_places, damaged, deep_pair, kept, kept_twice, mixed_sheet, pair,
    random_record, random_sheet, recoded, refusing_pair, rule_table, script_length, spelled,
    walk_places, walk_seed, walk_sheet, walk_wish, Rng, AIMS_KEPT, AIMS_READ,
};
use model::sheet::Sheet;

use super::tables::Tables;
use super::{bounds, keypads, pairs, runs, scripts, tables, walks};
use crate::edge;

/// One reading.
pub fn read(bytes: &[u8]) {
    let ours = edge::read(bytes);
    let (number, plain) = tables::read(bytes);
    assert_eq!((ours.number, Tables::of(&ours.sheet)), (number, plain));
}

/// One check.
pub fn check(sheet: &Sheet) {
    assert_eq!(edge::check(sheet), tables::check(&Tables::of(sheet)));
}

/// One probe list; how many probes it has.
pub fn list(sheet: &Sheet, node: u8, length: usize) -> u16 {
    let (mut ours, mut plain) = (vec![7; length], vec![7; length]);
    let answer = edge::list(sheet, node, &mut ours);
    let other = runs::list(&Tables::of(sheet), node, &mut plain);
    assert_eq!((answer, ours), (other, plain));
    answer.count
}

/// One opening; its record.
pub fn open(sheet: &Sheet, k: u16, h: u16, traces: u8) -> Record {
    let ours = edge::open(sheet, k, h, traces);
    assert_eq!(ours, runs::open(&Tables::of(sheet), k, h, traces));
    ours.run
}

/// One report, by value and in place.
pub fn step(sheet: &Sheet, record: &Record, code: u16) {
    let tables = Tables::of(sheet);
    let ours = edge::step(sheet, record, code);
    assert_eq!(ours, runs::step(&tables, record, code));
    let (mut run, mut other) = (*record, *record);
    let answer = edge::report(&mut run, sheet, code);
    assert_eq!(answer, runs::report(&mut other, &tables, code));
    assert_eq!(run, other);
}

/// One verdict; its kind.
pub fn judge(reference: &Sheet, device: &Sheet, k: u16, traces: u8) -> u8 {
    let ours = edge::judge(reference, device, k, traces);
    let (mine, theirs) = (Tables::of(reference), Tables::of(device));
    assert_eq!(ours, pairs::judge(&mine, &theirs, k, traces));
    ours.kind
}

/// The verdicts on all tests, with a list of this length.
pub fn judge_all(reference: &Sheet, device: &Sheet, traces: u8, length: usize) {
    let (mut ours, mut plain) = (vec![7; length], vec![7; length]);
    let answer = edge::judge_all(reference, device, traces, &mut ours);
    let (mine, theirs) = (Tables::of(reference), Tables::of(device));
    let other = pairs::judge_all(&mine, &theirs, traces, &mut plain);
    assert_eq!((answer, ours), (other, plain));
}

/// One comparison with lists of these lengths.
pub fn compare(
    (reference, device): (&Sheet, &Sheet),
    traces: u8,
    (words, places): (usize, usize),
) -> Compared {
    let (mut work, mut trace) = (vec![9; words], vec![9; places]);
    let (mut other_work, mut other_trace) = (work.clone(), trace.clone());
    let ours = edge::compare(reference, device, traces, &mut work, &mut trace);
    let plain = pairs::compare(
        &Tables::of(reference),
        &Tables::of(device),
        traces,
        &mut other_work,
        &mut other_trace,
    );
    assert_eq!(ours, plain);
    assert_eq!((work, trace), (other_work, other_trace));
    ours
}

/// One count of scripts.
pub fn count(reference: &Sheet, device: &Sheet, length: u16) -> Scripts {
    let ours = edge::count(reference, device, length);
    let (mine, theirs) = (Tables::of(reference), Tables::of(device));
    assert_eq!(ours, scripts::count(&mine, &theirs, length));
    ours
}

/// One check of a rule table.
pub fn keypad(sheet: &Sheet, table: &[u8]) -> Keypad {
    let ours = edge::keypad(sheet, table);
    assert_eq!(ours, keypads::keypad(&Tables::of(sheet), table));
    ours
}

/// One lookup.
pub fn find(sheet: &Sheet, table: &[u8], code: u8) -> Found {
    let ours = edge::find(sheet, table, code);
    assert_eq!(ours, keypads::find(&Tables::of(sheet), table, code));
    ours
}

/// One walk with a list of this length.
pub fn walk(sheet: &Sheet, seed: u32, wish: u16, length: usize) -> Walked {
    let (mut ours, mut plain) = (vec![77; length], vec![77; length]);
    let answer = edge::walk(sheet, seed, wish, &mut ours);
    let other = walks::walk(&Tables::of(sheet), seed, wish, &mut plain);
    assert_eq!((answer, ours), (other, plain));
    answer
}

/// The two sheets of the bound with lists of these lengths.
pub fn bound(p: u8, q: u8, (first, second): (usize, usize)) -> Bounded {
    let (mut mine, mut theirs) = (vec![77; first], vec![77; second]);
    let (mut other, mut others) = (mine.clone(), theirs.clone());
    let answer = edge::bound(p, q, &mut mine, &mut theirs);
    let plain = bounds::bound(p, q, &mut other, &mut others);
    assert_eq!((answer, mine, theirs), (plain, other, others));
    answer
}

/// Some random inputs of every call, refused ones among them.
pub fn random(rounds: usize) {
    let mut rng = Rng::new(1);
    for round in 0..rounds {
        let good = random_sheet(&mut rng);
        let aim = AIMS_KEPT[round % AIMS_KEPT.len()];
        let bad = kept(&mut rng, aim);
        let worse = kept_twice(&mut rng);
        read(&spelled(&mut rng, &good));
        read(&damaged(&mut rng, AIMS_READ[round % AIMS_READ.len()]));
        let mixed = mixed_sheet(&mut rng);
        let walked = walk_sheet(&mut rng);
        for sheet in [&good, &bad, &worse, &mixed, &walked] {
            one_sheet(&mut rng, sheet);
        }
        let pair = if round % 3 == 0 { deep_pair } else { pair };
        let (reference, device) = pair(&mut rng);
        two_sheets(&mut rng, &reference, &device);
        let other = recoded(&mut rng, &device);
        two_sheets(&mut rng, &reference, &other);
        let other = rng.pick(&[bad, worse, good]);
        two_sheets(&mut rng, &reference, &other);
        two_sheets(&mut rng, &other, &device);
        let (reference, device) = refusing_pair(&mut rng);
        two_sheets(&mut rng, &reference, &device);
        for _ in 0..5 {
            let (p, q) = (bound_count(&mut rng), bound_count(&mut rng));
            bound(p, q, bound_places(&mut rng, p, q));
        }
    }
}

/// The calls on one sheet.
fn one_sheet(rng: &mut Rng, sheet: &Sheet) {
    check(sheet);
    let node = rng.below((sheet.n as usize).clamp(1, 33)) as u8;
    list(sheet, node, rng.pick(&[0, 1, 5, 924]));
    let k = rng.pick(&[0, 1, 1_023, 1_024]);
    let traces = u8::from(rng.one_in(3));
    open(sheet, k, rng.word(), traces);
    let run = random_record(rng, sheet);
    let record = Record::ZERO.after(&run);
    step(sheet, &record, rng.pick(&[0, 1, 2, 3, 11, 12, 255, 256]));
    let traces = Record {
        traces: 1,
        ..record
    };
    step(sheet, &traces, 256);
    let table = rule_table(rng, sheet.e.clamp(1, 12));
    keypad(sheet, &table);
    find(sheet, &table, asked_code(rng, &table));
    let (seed, wish) = (walk_seed(rng), walk_wish(rng));
    walk(sheet, seed, wish, walk_places(rng, wish));
}

/// The calls on two sheets.
fn two_sheets(rng: &mut Rng, reference: &Sheet, device: &Sheet) {
    let traces = u8::from(rng.one_in(3));
    let pairs = reference.n as usize * device.n as usize;
    let k = rng.pick(&[0, 1, 2, 7, pairs.saturating_sub(1), 1_024]);
    judge(reference, device, k.min(65_535) as u16, traces);
    let length = rng.pick(&[pairs, pairs + 3, pairs.saturating_sub(1)]);
    judge_all(reference, device, traces, length);
    let words = WORDS_A_PAIR * pairs;
    let words = rng.pick(&[words, words + 1, words.saturating_sub(1), words + pairs]);
    let places = rng.pick(&[pairs, pairs.saturating_sub(1), pairs.saturating_sub(2)]);
    compare((reference, device), traces, (words, places));
    count(reference, device, script_length(rng));
}
