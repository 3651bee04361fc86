//! The programs: each is run as it was built, on inputs of every kind, which reach it through a
//! pipe, some of them in pieces.

pub mod bound_pair;
pub mod compare;
pub mod keypad_check;
pub mod live;
pub mod probe_list;
pub mod script_counts;
pub mod show;
pub mod suite;
pub mod walk;

use std::io::{Read, Write};
use std::path::{Path, PathBuf};
use std::process::{Command, Stdio};

use model::random::AIMS_READ;

use crate::findings::Findings;

const LENGTH: &str = "input under 4 bytes (0), up to 4096 (1), longer (2)";

fn count_length(findings: &mut Findings, input: &[u8]) {
    let length = match input.len() {
        0..=3 => 0,
        4..=4_096 => 1,
        _ => 2,
    };
    findings.count(LENGTH, length);
}

const VERSIONS: &str = "accepted pairs, versions 1 1 (0), 1 2 (1), 2 1 (2), 2 2 (3)";

/// Counts the versions of an input of two sheets, both of which are accepted and agree.
fn count_versions(findings: &mut Findings, input: &[u8]) {
    let field = input
        .first_chunk::<4>()
        .map_or(0, |b| u32::from_be_bytes(*b));
    let second = |place: usize| input.get(field as usize + 4 + place) == Some(&2);
    let class = 2 * u64::from(input.get(4) == Some(&2)) + u64::from(second(4));
    findings.count(VERSIONS, class);
}

/// The refusals of a reading.
fn refusals() -> Vec<u64> {
    AIMS_READ.into_iter().map(u64::from).collect()
}

/// The number that a text has after some words at the front of a line.
fn after(text: &str, words: &str) -> Option<u64> {
    let rest = text.lines().find_map(|line| line.strip_prefix(words))?;
    rest.split(' ').next()?.parse().ok()
}

/// The repository's target/, where `./bench build` puts the programs, below bin/.
fn target() -> PathBuf {
    Path::new(env!("CARGO_MANIFEST_DIR")).join("../../target")
}

/// What a program writes for some words and an input, which comes in two pieces if asked for.
fn printed(program: &str, words: &[String], input: &[u8], pieces: bool) -> String {
    match written(program, words, input, pieces, Stdio::inherit()) {
        Ok((bytes, _)) => text_of(bytes),
        Err(error) => format!("no output: {error}"),
    }
}

/// The same, and what it says on standard error.
fn printed_and_said(
    program: &str,
    words: &[String],
    input: &[u8],
    pieces: bool,
) -> (String, String) {
    let (bytes, said) = bytes_and_said(program, words, input, pieces);
    (text_of(bytes), text_of(said))
}

/// The same as bytes.
fn bytes_and_said(
    program: &str,
    words: &[String],
    input: &[u8],
    pieces: bool,
) -> (Vec<u8>, Vec<u8>) {
    match written(program, words, input, pieces, Stdio::piped()) {
        Ok(both) => both,
        Err(error) => (format!("no output: {error}").into(), Vec::new()),
    }
}

/// The text that bytes are.
fn text_of(bytes: Vec<u8>) -> String {
    String::from_utf8(bytes).unwrap_or_else(|error| format!("no text: {error}"))
}

fn written(
    program: &str,
    words: &[String],
    input: &[u8],
    pieces: bool,
    errors: Stdio,
) -> std::io::Result<(Vec<u8>, Vec<u8>)> {
    let mut child = Command::new(target().join("bin").join(program))
        .args(words)
        .stdin(Stdio::piped())
        .stdout(Stdio::piped())
        .stderr(errors)
        .spawn()?;
    if let Some(mut pipe) = child.stdin.take() {
        let middle = if pieces { input.len() / 2 } else { 0 };
        let first = pipe.write_all(&input[..middle]);
        if pieces {
            std::thread::sleep(std::time::Duration::from_millis(2));
        }
        // A program may stop reading before the end, so that the rest may fail.
        let _ = first.and_then(|()| pipe.write_all(&input[middle..]));
    }
    let (mut bytes, mut said) = (Vec::new(), Vec::new());
    if let Some(mut pipe) = child.stdout.take() {
        pipe.read_to_end(&mut bytes)?;
    }
    // What is said there is short, so that the program never waits for it to be read.
    if let Some(mut pipe) = child.stderr.take() {
        pipe.read_to_end(&mut said)?;
    }
    let status = child.wait()?;
    if !status.success() {
        bytes.extend(status.to_string().bytes());
    }
    Ok((bytes, said))
}
