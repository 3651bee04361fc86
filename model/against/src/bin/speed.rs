//! speed [--check]
//!
//! The time of each call of the proved library against plain Rust over flat tables, on its
//! worst case, and the growth over p q. Both sides take turns in one run; the lower quartile
//! of each is given, and their ratio, library by plain Rust. It judges no time. With --check
//! nothing is measured: both sides only answer, on each case and on random inputs. A
//! difference between two answers ends the program with an error in both ways.

use std::process::ExitCode;

use against::speed::cases::{growth, worst, Case};
use against::speed::same;
use against::speed::timing::{versus, Times};

/// How many rounds of random inputs both sides answer before anything is measured.
const ROUNDS: usize = 400;

fn main() -> ExitCode {
    let words: Vec<String> = std::env::args().skip(1).collect();
    let words: Vec<&str> = words.iter().map(String::as_str).collect();
    match words[..] {
        [] => measure(),
        ["--check"] => check(),
        _ => {
            eprintln!("usage: speed [--check]");
            return ExitCode::from(2);
        }
    }
    ExitCode::SUCCESS
}

/// Both sides on every case, each called once more, and on random inputs.
fn check() {
    same::random(ROUNDS);
    let mut cases = worst();
    for (_, comparison, verdict) in growth() {
        cases.extend([comparison, verdict]);
    }
    for case in &mut cases {
        (case.ours)();
        (case.plain)();
    }
    let count = cases.len();
    println!("both sides agree: {count} cases, {ROUNDS} rounds of random inputs");
}

/// The two tables.
fn measure() {
    same::random(ROUNDS);
    println!(
        "{:<9} {:<40} {:>10} {:>10} {:>6}",
        "call", "case", "ours us", "Rust us", "ratio"
    );
    for mut case in worst() {
        let times = timed(&mut case);
        println!(
            "{:<9} {:<40} {:>10.3} {:>10.3} {:>6.2}",
            case.call,
            case.case,
            times.ours,
            times.plain,
            times.ratio()
        );
    }
    println!();
    println!("growth: a pair that refines, 12 events, 16 sets; verdict at k = p q - 1");
    println!(
        "{:<9} {:>5} {:>10} {:>10} {:>6} {:>12} {:>12}  per",
        "call", "p q", "ours us", "Rust us", "ratio", "ours ns", "Rust ns"
    );
    for (pairs, mut comparison, mut verdict) in growth() {
        grown(&mut comparison, pairs, pairs, "pair");
        grown(&mut verdict, pairs, pairs * pairs, "layer and pair");
    }
}

/// The times of a case.
fn timed(case: &mut Case) -> Times {
    versus(&mut *case.ours, &mut *case.plain)
}

/// One line of the growth, with the nanoseconds of each unit.
fn grown(case: &mut Case, pairs: usize, units: usize, unit: &str) {
    let times = timed(case);
    let each = |time: f64| time * 1e3 / units as f64;
    println!(
        "{:<9} {pairs:>5} {:>10.3} {:>10.3} {:>6.2} {:>12.3} {:>12.3}  {unit}",
        case.call,
        times.ours,
        times.plain,
        times.ratio(),
        each(times.ours),
        each(times.plain)
    );
}
