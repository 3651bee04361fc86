//! The texts of the programs with a fault planted.

pub mod bound_pair;
pub mod compare;
pub mod keypad_check;
pub mod live;
pub mod probe_list;
pub mod script_counts;
pub mod show;
pub mod suite;
pub mod walk;

/// Lines, each with its newline.
fn joined(lines: &[String]) -> String {
    lines.iter().map(|line| format!("{line}\n")).collect()
}

fn owned(lines: &[&str]) -> Vec<String> {
    lines.iter().map(|line| line.to_string()).collect()
}

/// A text with another line in place of each line.
fn each_line(text: &str, line: impl Fn(&str) -> String) -> String {
    text.lines().map(|old| line(old) + "\n").collect()
}

/// A text without some of its lines.
fn without(text: &str, left_out: impl Fn(&str) -> bool) -> String {
    let kept = text.lines().filter(|line| !left_out(line));
    kept.map(|line| format!("{line}\n")).collect()
}

/// A text in whose lines of a sheet's size nodes and events are exchanged.
fn exchanged(text: &str) -> String {
    each_line(text, |line| {
        let words: Vec<&str> = line.split(' ').collect();
        match words[..] {
            [who, n, "nodes", e, "events"] => format!("{who} {e} nodes {n} events"),
            _ => line.to_string(),
        }
    })
}

/// A text in which the parentheses stand without a set's number before them.
fn without_numbers(text: &str) -> String {
    each_line(text, |line| {
        let words: Vec<&str> = line.split(' ').collect();
        let number = |place: usize| words.get(place + 1) == Some(&"(");
        let kept = words
            .iter()
            .enumerate()
            .filter(|(place, _)| !number(*place));
        kept.map(|(_, word)| *word).collect::<Vec<_>>().join(" ")
    })
}

/// A text in which sets have no events.
fn without_events(text: &str) -> String {
    each_line(text, |line| {
        let mut inside = false;
        let words = line.split(' ').filter(|&word| {
            let kept = !inside && word != "(";
            inside = word == "(" || (inside && word != ")");
            kept
        });
        words.collect::<Vec<_>>().join(" ")
    })
}
