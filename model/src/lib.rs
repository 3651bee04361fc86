//! A plain model of the dialogue bench: sheets, probes, tests, comparisons, scripts, keypads, walks
//! and the pair of sheets that reaches the bound.
//!
//! Everything here follows the written definitions as directly as possible.
//! Speed is given up wherever it would need a cleverer argument.

pub mod bound;
pub mod comparison;
pub mod examples;
pub mod faults;
pub mod keypad;
pub mod load;
pub mod numbers;
pub mod planted;
pub mod probes;
pub mod random;
mod rules;
pub mod scripts;
pub mod sheet;
pub mod small;
pub mod tests;
pub mod text;
pub mod verdict;
