//! The whole output of the program `compare`.

use super::pair_lines;
use crate::comparison::{compare, Named, Outcome, MAX_WORDS};
use crate::sheet::Sheet;

/// The output for an input of bytes, each line with its newline.
pub fn output(input: &[u8]) -> String {
    output_by(input, |reference, device| {
        compare(reference, device, false, MAX_WORDS, 1_023)
    })
}

/// The same with another comparison.
pub fn output_by(input: &[u8], compare: impl Fn(&Sheet, &Sheet) -> Result<Outcome, u8>) -> String {
    pair_lines(input, |reference, device| {
        result_lines(compare(reference, device))
    })
}

fn result_lines(answer: Result<Outcome, u8>) -> String {
    match answer {
        Err(number) => format!("comparison refused {number}\n"),
        Ok(Outcome::Refines { cleared }) => format!("refines cleared {cleared}\n"),
        Ok(Outcome::Violates {
            d,
            cleared,
            trace,
            named,
        }) => {
            let events: String = trace.iter().map(|event| format!(" {event}")).collect();
            let end = match named {
                Named::Stray(event) => format!("stray {event}"),
                Named::Refused { probe, acceptance } => format!("refused {probe} by {acceptance}"),
            };
            format!("violates after {d} cleared {cleared}\ntrace{events}\n{end}\n")
        }
    }
}
