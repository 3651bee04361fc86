//! against [PART] [SEED [COUNT [FIRST]]]
//!
//! Plays COUNT rounds of every part from the round FIRST on and compares the model with
//! the proved library. What is left out is as at the gate: the seed 1, the rounds that
//! each part names, from round 0 on. A first word that is no number leaves only the parts
//! whose names begin with it. The status is 0 only if nothing is wrong.

use std::process::ExitCode;
use std::time::Instant;

use against::findings::Summary;
use against::parts::{ALL, MISTAKES};
use against::play::{play, Part, Rounds};

fn main() -> ExitCode {
    let Some((parts, rounds)) = arguments() else {
        eprintln!("usage: against [PART] [SEED [COUNT [FIRST]]], a part and then numbers");
        let names: Vec<&str> = ALL.iter().map(|part| part.name).collect();
        eprintln!("the parts: {}", names.join(", "));
        return ExitCode::from(2);
    };
    let start = Instant::now();
    let mut summaries = Vec::new();
    for part in parts {
        let begun = Instant::now();
        summaries.push((part.name, play(part, rounds)));
        println!("  {:.1} seconds", begun.elapsed().as_secs_f64());
    }
    let good = close(&summaries);
    let word = if good { "all equal" } else { "FAILED" };
    let seconds = start.elapsed().as_secs_f64();
    println!("{word}: seed {}, {seconds:.1} seconds", rounds.seed);
    if good {
        ExitCode::SUCCESS
    } else {
        ExitCode::FAILURE
    }
}

/// Prints the closing lines of the parts, and of the mistakes if all parts were played. Whether
/// nothing is wrong.
fn close(summaries: &[(&str, Summary)]) -> bool {
    let all = || summaries.iter().map(|(_, summary)| summary);
    let mut good = all().all(|summary| summary.good);
    let whole = summaries.len() == ALL.len();
    println!(
        "{} parts: {} classes, the smallest with {} inputs; {} planted faults",
        if whole { "all" } else { "these" },
        all().map(|summary| summary.classes).sum::<usize>(),
        all().map(|summary| summary.smallest).min().unwrap_or(0),
        all().map(|summary| summary.plants.len()).sum::<usize>()
    );
    if !whole {
        return good;
    }
    println!("the mistakes that a good bench hand makes, with the rounds that caught them:");
    for (name, mistake) in MISTAKES {
        let caught = caught(summaries, name);
        good &= !caught.is_empty();
        let told = if caught.is_empty() {
            "WRONG: not caught".to_string()
        } else {
            caught.join(", ")
        };
        println!("  {mistake}: {told}");
    }
    good
}

/// Where a mistake was caught: each part in which it is planted, with the round.
fn caught(summaries: &[(&str, Summary)], name: &str) -> Vec<String> {
    let places = summaries.iter().flat_map(|(part, summary)| {
        let plants = summary.plants.iter().filter(|(plant, _)| plant == name);
        plants.filter_map(move |(_, round)| round.map(|round| format!("{part} {round}")))
    });
    places.collect()
}

/// The parts and the rounds that the arguments ask for.
fn arguments() -> Option<(Vec<&'static Part>, Rounds)> {
    let mut words: Vec<String> = std::env::args().skip(1).collect();
    let named = words
        .first()
        .is_some_and(|word| word.parse::<u64>().is_err());
    let name = if named {
        words.remove(0)
    } else {
        String::new()
    };
    let parts: Vec<&Part> = ALL
        .iter()
        .filter(|part| part.name.starts_with(&name))
        .collect();
    let numbers: Option<Vec<u64>> = words.iter().map(|word| word.parse().ok()).collect();
    let numbers = numbers?;
    let given = |place: usize| numbers.get(place).copied();
    let rounds = Rounds {
        seed: given(0).unwrap_or(1),
        count: given(1),
        first: given(2).unwrap_or(0),
    };
    (numbers.len() <= 3 && !parts.is_empty()).then_some((parts, rounds))
}
