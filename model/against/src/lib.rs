//! The model against the proved library, on random inputs, call by call, and against the programs.
//!
//! Each module of `parts` compares some calls. A new call joins with its declaration in
//! `edge` and a module in `parts`, which stands in `parts::ALL`.

pub mod edge;
pub mod findings;
pub mod parts;
pub mod play;
pub mod speed;
