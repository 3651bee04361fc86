//! Random lengths of lent lists.

use super::Rng;
use crate::comparison::WORDS_A_PAIR;

/// A length around a limit.
pub fn length_around(rng: &mut Rng, limit: usize) -> usize {
    match rng.below(6) {
        0 => 0,
        1 => limit.saturating_sub(1),
        2 => limit,
        3 => limit + 1,
        4 => limit + rng.range(2, 20),
        _ => rng.below(limit + 1),
    }
}

/// A length of a work list for p·q pairs of nodes, at least one: around 2·p·q words, from
/// there to 3·p·q - 1, or around 3·p·q, so that the later words are seen to be left.
pub fn work_length(rng: &mut Rng, pairs: usize) -> usize {
    let words = WORDS_A_PAIR * pairs;
    match rng.below(4) {
        0 => words + rng.below(pairs),
        1 => words + pairs - 1 + rng.below(3),
        _ => length_around(rng, words),
    }
}
