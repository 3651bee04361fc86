//! The speed of the proved library beside plain Rust.
//!
//! `tables`, `runs`, `pairs`, `scripts`, `keypads`, `walks` and `bounds` are the calls of the
//! library as plain Rust over flat tables: the same inputs, every check and the same answers,
//! written for speed, but without a cleverer method: each set of events is tried once, in the order
//! of the probe list, each layer of a verdict is made from the one before it, a loop is left at the
//! first hit, the rules of a keypad at the second, a walk copies out the initials of each node
//! once, and the sheets of the bound are written node by node straight to their places. `inputs`
//! has the worst case of each call, `same` holds both sides together, `timing` measures them.

pub mod bounds;
pub mod cases;
pub mod inputs;
pub mod keypads;
pub mod pairs;
pub mod runs;
pub mod same;
pub mod scripts;
pub mod tables;
pub mod timing;
pub mod walks;
