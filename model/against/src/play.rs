//! Plays a part: in a thread with a stack of 2 MB, watched, so that a call without an
//! end is a failure too. A call that traps ends the whole program by its signal.

use std::sync::atomic::{AtomicU64, Ordering};
use std::sync::mpsc::{channel, RecvTimeoutError};
use std::sync::Arc;
use std::thread::Builder;
use std::time::Duration;

use model::random::Rng;

use crate::findings::{Findings, Summary};

/// The stack of the thread that makes the calls.
const STACK: usize = 2 * 1_024 * 1_024;

/// No round takes as long as this.
const PATIENCE: Duration = Duration::from_secs(20);

/// Some calls that are compared together.
pub struct Part {
    pub name: &'static str,
    /// How many rounds the gate plays.
    pub rounds: u64,
    /// The groups of classes and the planted faults.
    pub findings: fn() -> Findings,
    /// One round: some inputs, drawn from a generator of its own.
    pub round: fn(&mut Rng, u64, &mut Findings),
    /// What the inputs of all rounds must have.
    pub demands: fn(&mut Findings),
}

/// Which rounds are played.
#[derive(Clone, Copy)]
pub struct Rounds {
    pub seed: u64,
    pub first: u64,
    /// How many; without a number as many as the gate plays.
    pub count: Option<u64>,
}

/// The generator of one round. It depends on nothing but the seed, the part's name and
/// the round, so that a round can be played alone.
fn generator(seed: u64, part: &str, round: u64) -> Rng {
    let mut start = Rng::new(seed).next_u64();
    for byte in part.bytes() {
        start = Rng::new(start ^ u64::from(byte)).next_u64();
    }
    Rng::new(Rng::new(start ^ round).next_u64())
}

/// Plays the rounds of a part and prints what they find.
pub fn play(part: &'static Part, rounds: Rounds) -> Summary {
    let count = rounds.count.unwrap_or(part.rounds);
    let at = Arc::new(AtomicU64::new(rounds.first));
    let place = Arc::clone(&at);
    let (send, receive) = channel();
    let work = move || {
        let mut findings = (part.findings)();
        for round in rounds.first..rounds.first.saturating_add(count) {
            place.store(round, Ordering::Relaxed);
            findings.begin(round);
            let mut rng = generator(rounds.seed, part.name, round);
            (part.round)(&mut rng, round, &mut findings);
        }
        (part.demands)(&mut findings);
        let _ = send.send(findings);
    };
    println!(
        "{}: seed {}, {count} rounds from {} on",
        part.name, rounds.seed, rounds.first
    );
    if let Err(error) = Builder::new().stack_size(STACK).spawn(work) {
        println!("  WRONG: no thread: {error}");
        return Summary::BROKEN;
    }
    let mut seen = rounds.first;
    loop {
        match receive.recv_timeout(PATIENCE) {
            Ok(findings) => return findings.report(),
            Err(RecvTimeoutError::Disconnected) => {
                println!("  WRONG: round {} panicked", at.load(Ordering::Relaxed));
                return Summary::BROKEN;
            }
            Err(RecvTimeoutError::Timeout) => {
                let now = at.load(Ordering::Relaxed);
                if now == seen {
                    println!("  WRONG: round {now} has no end");
                    return Summary::BROKEN;
                }
                seen = now;
            }
        }
    }
}
