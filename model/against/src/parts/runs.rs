//! Openings and reports: whole runs of random sheets against random devices, of both
//! kinds, with refused reports in between, and records and reports of any content.

use model::numbers::{open_numbers, report_of, said, step_numbers, stepped, Record, Said, Stepped};
use model::planted::probes::{found_with, ProbeFault};
use model::planted::runs::{open_with, step_numbers_with, RunFault};
use model::probes::probes;
use model::random::{deep_pair, mixed_sheet, pair, random_record, random_sheet, Rng};
use model::sheet::{after, Sheet};
use model::tests::{Answer, Report, MAX_TEST};
use model::verdict::device_reports;

use super::{bad_sheet, catch, flag, names, shown_sheet};
use crate::edge;
use crate::findings::Findings;
use crate::play::Part;

const OPEN: &str = "open, 0 opened or the refusal";
const STEP: &str = "report, 0 answered or the refusal";
const RUNS: &str = "runs ended, 2 stray, 3 refused, 4 passed by an event, 5 passed by blocking";
const TRACES: &str = "trace-only runs ended, 2 stray, 4 passed by an event, 5 passed by blocking, \
    6 inconclusive";
const BLOCKED: &str =
    "trace-only, blocked, 0 with k 0, 1 at another depth k, 2 at depth k - 1, 3 at a lower one";
const EARLY: &str = "inconclusive, 0 at depth 0 of a node that may not stop, 1 deeper, \
    2 at depth 0 of one that may stop, 3 deeper";
const BYTES: &str = "inconclusive, the flag of trace-only is 1 (1), 2 to 127 (2), higher (3)";
const LATER: &str = "reports after an inconclusive ending, 0 an event, 1 blocked";
const OTHERS: &str = "not trace-only, blocked below depth k, 3 refused, 4 passed";
const DEEP: &str =
    "runs of 0 (0), 1 to 9 (1), 10 to 99 (2), 100 and more (3) events before the end";
const ORDER: &str = "offers of a probe, 0 of a list that ascends by number, 1 of another, \
    the same probe as by number, 2 another probe";
const FLAGS: &str = "records with a flag 0, 1, 2 other";

pub const PART: Part = Part {
    name: "runs",
    rounds: 4_000,
    findings,
    round,
    demands: |_| {},
};

fn findings() -> Findings {
    let groups = vec![
        (OPEN, vec![0, 3, 5, 6, 7, 8, 14, 18]),
        (STEP, vec![0, 3, 5, 6, 7, 8, 9, 15, 16, 17, 18]),
        (RUNS, vec![2, 3, 4, 5]),
        (TRACES, vec![2, 4, 5, 6]),
        (BLOCKED, vec![0, 1, 2, 3]),
        (EARLY, vec![0, 1, 2, 3]),
        (BYTES, vec![1, 2, 3]),
        (LATER, vec![0, 1]),
        (OTHERS, vec![3, 4]),
        (DEEP, vec![0, 1, 2, 3]),
        (ORDER, vec![0, 1, 2]),
        (FLAGS, vec![0, 1, 2]),
    ];
    Findings::new(groups, names(RunFault::ALL))
}

/// A whole run, a short one that is trace-only, some records and reports of any content, sheets of
/// any content, flags of every byte, "blocked" at depth k and below it, and an opening and a report
/// that show the order of the probes.
fn round(rng: &mut Rng, round: u64, findings: &mut Findings) {
    let (reference, device) = if rng.one_in(6) {
        deep_pair(rng)
    } else {
        pair(rng)
    };
    let (k, trace_only) = (any_number(rng).min(MAX_TEST), rng.one_in(3));
    play(rng, findings, (&reference, &device), k, trace_only);
    let k = rng.below(4) as u16;
    play(rng, findings, (&reference, &device), k, true);
    let sheet = random_sheet(rng);
    for _ in 0..3 {
        let record = any_record(rng, &sheet);
        let code = any_code(rng, &sheet);
        try_step(findings, &sheet, &record, code);
    }
    let bad = bad_sheet(rng);
    let record = any_record(rng, &bad);
    let code = any_code(rng, &bad);
    try_step(findings, &bad, &record, code);
    let (k, h) = (any_number(rng), rng.word());
    let traces = rng.one_in(2);
    let traces = flag(rng, traces);
    try_open(findings, &bad, k, h, traces);
    let k = rng.pick(&[MAX_TEST, MAX_TEST + 1, MAX_TEST + 2, 65_535, 0, 1]);
    try_open(findings, &sheet, k, h, traces);
    try_flags(rng, round, findings, &sheet);
    try_blocked(rng, round, findings, &sheet);
    let sheet = mixed_sheet(rng);
    try_open(findings, &sheet, 0, h, 0);
    let record = any_record(rng, &sheet);
    let code = any_code(rng, &sheet);
    try_step(findings, &sheet, &record, code);
}

/// Reports on a record with a byte as its flag of trace-only, and on one with it as its
/// flag of ended: 256 rounds have every byte.
fn try_flags(rng: &mut Rng, round: u64, findings: &mut Findings, sheet: &Sheet) {
    let byte = (round % 256) as u8;
    let traces = Record {
        traces: byte,
        ended: 0,
        ..any_record(rng, sheet)
    };
    let ended = Record {
        ended: byte,
        ..any_record(rng, sheet)
    };
    for record in [traces, ended] {
        let code = any_code(rng, sheet);
        try_step(findings, sheet, &record, code);
    }
}

/// "Blocked" on a trace-only record at depth k or below it, a report after that, and "blocked" on
/// the same record that is not trace-only: 255 rounds have every byte as the flag.
fn try_blocked(rng: &mut Rng, round: u64, findings: &mut Findings, sheet: &Sheet) {
    let k: u16 = rng.pick(&[0, 1, 2, 5, MAX_TEST]);
    let depth = match rng.below(4) {
        0 => 0,
        1 => k,
        2 => k.saturating_sub(1),
        _ => rng.below(usize::from(k) + 1) as u16,
    };
    let record = Record {
        k,
        h: rng.word(),
        traces: (round % 255) as u8 + 1,
        ended: 0,
        node: rng.below(sheet.n.into()) as u8,
        depth,
    };
    let code = code_of(rng, Report::Blocked);
    let answered = try_step(findings, sheet, &record, code);
    try_after(rng, findings, sheet, &answered);
    let record = Record {
        traces: 0,
        ..record
    };
    let code = code_of(rng, Report::Blocked);
    try_step(findings, sheet, &record, code);
}

/// A report after an ending.
fn try_after(rng: &mut Rng, findings: &mut Findings, sheet: &Sheet, answered: &Stepped) {
    let code = any_code(rng, sheet);
    try_step(findings, sheet, &answered.run, code);
    if is_inconclusive(&answered.answer) {
        let blocked = report_of(code) == Report::Blocked;
        findings.count(LATER, u64::from(blocked));
    }
}

/// Whether an answer is the inconclusive ending.
fn is_inconclusive(answer: &Said) -> bool {
    *answer == said(Answer::Inconclusive)
}

/// A test number, at times too high.
fn any_number(rng: &mut Rng) -> u16 {
    match rng.below(6) {
        0 => 0,
        1 => rng.range(1, 3) as u16,
        2 => rng.range(4, 40) as u16,
        3 => rng.below(1_024) as u16,
        4 => MAX_TEST,
        _ => rng.pick(&[MAX_TEST + 1, 2_000, 65_535]),
    }
}

/// A record with flags of any number.
fn any_record(rng: &mut Rng, sheet: &Sheet) -> Record {
    let run = random_record(rng, sheet);
    Record {
        k: run.k,
        h: run.h,
        traces: flag(rng, run.trace_only),
        ended: flag(rng, run.ended),
        node: run.node,
        depth: run.depth,
    }
}

/// A report's code: an event of the sheet, one that it has not, or blocked.
fn any_code(rng: &mut Rng, sheet: &Sheet) -> u16 {
    match rng.below(6) {
        0 => rng.pick(&[256, 257, 511, 512, 32_768, 65_535]),
        1 => rng.pick(&[u16::from(sheet.e), 12, 13, 15, 16, 17, 255]),
        2 => rng.word(),
        _ => rng.below((sheet.e as usize).max(1)) as u16,
    }
}

/// A whole run: opened by the library, with the reports that the device can give, chosen
/// at random, and with refused ones in between, until it has ended and once after that.
fn play(
    rng: &mut Rng,
    findings: &mut Findings,
    (reference, device): (&Sheet, &Sheet),
    k: u16,
    trace_only: bool,
) {
    let h = if rng.one_in(2) {
        rng.word()
    } else {
        rng.below(40) as u16
    };
    let traces = flag(rng, trace_only);
    let opened = try_open(findings, reference, k, h, traces);
    let (mut record, mut offer, mut at) = (opened.run, opened.answer.value, 0u8);
    for count in 0..=u64::from(k) {
        refuse_between(rng, findings, reference, &record);
        let reports = device_reports(&device.row(at), device.e, offer);
        let Some(report) = next_report(rng, reference, &record, reports) else {
            return;
        };
        let code = code_of(rng, report);
        let answered = try_step(findings, reference, &record, code);
        record = answered.run;
        offer = answered.answer.value;
        match (answered.answer.kind, report) {
            (1, Report::Event(event)) => match after(device, at, event) {
                Some(next) => at = next,
                None => return,
            },
            (kind, _) => {
                count_ending(findings, trace_only, u64::from(kind), report, count);
                try_after(rng, findings, reference, &answered);
                return;
            }
        }
    }
}

/// At times a report in between that is refused.
fn refuse_between(rng: &mut Rng, findings: &mut Findings, reference: &Sheet, record: &Record) {
    if rng.one_in(8) {
        let code = any_code(rng, reference);
        let refused = step_numbers(reference, record, code).answer.refusal != 0;
        if refused {
            try_step(findings, reference, record, code);
        }
    }
}

/// One of the reports that the device can give. Strays and blocks come late, so that runs
/// go deep; at depth k of a trace-only run blocks come often.
fn next_report(
    rng: &mut Rng,
    reference: &Sheet,
    record: &Record,
    mut reports: Vec<Report>,
) -> Option<Report> {
    let on = |report: &Report| {
        let Report::Event(event) = *report else {
            return false;
        };
        after(reference, record.node, event).is_some()
    };
    if reports.iter().any(on) && record.depth < record.k && !rng.one_in(30) {
        reports.retain(on);
    }
    let last = record.traces != 0 && record.depth == record.k;
    if last && reports.contains(&Report::Blocked) && rng.one_in(2) {
        return Some(Report::Blocked);
    }
    if reports.is_empty() {
        return None;
    }
    Some(rng.pick(&reports))
}

/// The code of a report: an event's number, or some number for blocked.
fn code_of(rng: &mut Rng, report: Report) -> u16 {
    match report {
        Report::Event(event) => u16::from(event),
        Report::Blocked => rng.pick(&[256, 256, 256, 300, 65_535]),
    }
}

/// Counts how a run ended, and after how many reports. From "passed by blocking" on a class has one
/// more than the number of its ending.
fn count_ending(findings: &mut Findings, trace_only: bool, kind: u64, report: Report, count: u64) {
    let by_block = kind >= 4 && report == Report::Blocked;
    let group = if trace_only { TRACES } else { RUNS };
    findings.count(group, kind + u64::from(by_block));
    findings.count(DEEP, digits(count));
}

/// How many digits a count has, 0 for none.
fn digits(count: u64) -> u64 {
    match count {
        0 => 0,
        1..=9 => 1,
        10..=99 => 2,
        _ => 3,
    }
}

/// Counts a report of "blocked" that is answered: at which depth, and what an inconclusive ending
/// has of flag and node.
fn count_blocked(findings: &mut Findings, sheet: &Sheet, record: &Record, answer: &Said) {
    let below = record.k - record.depth;
    if record.traces == 0 {
        if below > 0 {
            findings.count(OTHERS, answer.kind.into());
        }
        return;
    }
    let class = match below {
        0 => u64::from(record.k > 0),
        1 => 2,
        _ => 3,
    };
    findings.count(BLOCKED, class);
    if is_inconclusive(answer) {
        let stops = sheet.row(record.node).may_stop();
        let deeper = record.depth > 0;
        findings.count(EARLY, 2 * u64::from(stops) + u64::from(deeper));
        let byte = match record.traces {
            1 => 1,
            2..=127 => 2,
            _ => 3,
        };
        findings.count(BYTES, byte);
    }
}

/// Counts an offer at depth k, if the answer has one with a probe: whether the order of the list
/// shows in it.
fn count_offer(findings: &mut Findings, sheet: &Sheet, answered: &Stepped) {
    let run = answered.run;
    let offers = matches!(answered.answer.kind, 1 | 3);
    if !offers || run.traces != 0 || run.depth < run.k {
        return;
    }
    let list = probes(sheet, run.node);
    if list.is_empty() {
        return;
    }
    let by_number = found_with(ProbeFault::ByNumber, sheet, run.node);
    let chosen = usize::from(run.h) % list.len();
    let class = match list == by_number {
        true => 0,
        false => 1 + u64::from(list[chosen] != by_number[chosen]),
    };
    findings.count(ORDER, class);
}

/// One opening by the library, by the model, and by each fault that is not caught yet.
fn try_open(findings: &mut Findings, sheet: &Sheet, k: u16, h: u16, traces: u8) -> Stepped {
    let ours = edge::open(sheet, k, h, traces);
    let model = open_numbers(sheet, k, h, traces);
    findings.compared(ours == model, || {
        format!(
            "open {k} {h} {traces} on {}: model {model:?}, library {ours:?}",
            shown_sheet(sheet)
        )
    });
    findings.count(OPEN, u64::from(model.answer.refusal));
    count_offer(findings, sheet, &model);
    catch(findings, RunFault::ALL, |fault| {
        let other = open_with(fault, sheet, k, h, traces != 0);
        stepped(&Record::ZERO, other) != ours
    });
    ours
}

/// One report by the library, by value and on the record in place, by the model, and by
/// each fault that is not caught yet.
fn try_step(findings: &mut Findings, sheet: &Sheet, record: &Record, code: u16) -> Stepped {
    let ours = edge::step(sheet, record, code);
    let model = step_numbers(sheet, record, code);
    let mut run = *record;
    let answer = edge::report(&mut run, sheet, code);
    let placed = Stepped { answer, run };
    findings.compared(ours == model && placed == model, || {
        format!(
            "report {code} to {record:?} on {}: model {model:?}, library by value {ours:?}, in place {placed:?}",
            shown_sheet(sheet)
        )
    });
    findings.count(STEP, u64::from(model.answer.refusal));
    count_offer(findings, sheet, &model);
    if report_of(code) == Report::Blocked && model.answer.refusal == 0 {
        count_blocked(findings, sheet, record, &model.answer);
    }
    for number in [record.traces, record.ended] {
        findings.count(FLAGS, u64::from(number.min(2)));
    }
    catch(findings, RunFault::ALL, |fault| {
        step_numbers_with(fault, sheet, record, code) != ours
    });
    ours
}
