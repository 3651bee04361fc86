//! The whole output of the program `suite`.

use super::pair_lines;
use crate::sheet::Sheet;
use crate::verdict::{verdicts, Verdict};

/// The output for an input of bytes, each line with its newline.
pub fn output(input: &[u8]) -> String {
    output_by(input, |reference, device| {
        let tests = u16::from(reference.n) * u16::from(device.n);
        verdicts(reference, device, tests, false)
    })
}

/// The same with other verdicts on tests 0 to p·q − 1.
pub fn output_by(
    input: &[u8],
    judge: impl Fn(&Sheet, &Sheet) -> Result<Vec<Verdict>, u8>,
) -> String {
    pair_lines(input, |reference, device| match judge(reference, device) {
        Ok(found) => {
            let tests = usize::from(reference.n) * usize::from(device.n);
            test_lines(&found) + &last_line(tests, &found)
        }
        Err(number) => format!("suite refused {number}\n"),
    })
}

/// A line for each test.
fn test_lines(found: &[Verdict]) -> String {
    let line = |(k, verdict): (usize, &Verdict)| match verdict {
        Verdict::Passes => format!("test {k} passes\n"),
        Verdict::Fails => format!("test {k} fails\n"),
    };
    found.iter().enumerate().map(line).collect()
}

/// How many tests there are, how many were run, and whether all passed.
fn last_line(tests: usize, found: &[Verdict]) -> String {
    let passed = found.iter().filter(|&&v| v == Verdict::Passes).count();
    let end = match passed == tests {
        true => "all pass".to_string(),
        false => format!("failed {}", found.len() - passed),
    };
    format!("tests {tests} run {} {end}\n", found.len())
}
