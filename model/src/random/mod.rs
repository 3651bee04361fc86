//! A small deterministic generator, and random sheets, codes, bytes, lists, runs, scripts, pairs,
//! rule tables, walks and numbers of nodes.

mod bounds;
mod codes;
mod damage;
mod input;
mod kept;
mod keypads;
mod lists;
mod pairs;
mod raw;
mod runs;
mod scripts;
mod walks;

pub use bounds::{bound_count, bound_places, bound_words, no_count, some_count};
pub use codes::{random_codes, recoded, spelled};
pub use damage::{damaged, damaged_twice, long_bytes, noise_bytes, AIMS_READ};
pub use input::{live_call, program_input, sheet_input};
pub use kept::{kept, kept_noise, kept_twice, AIMS_KEPT};
pub use keypads::{
    any_rules, asked_code, bad_rules, changed_rules, good_rules, keypad_call, refused_rules,
    rule_count, rule_table, wrong_length,
};
pub use lists::{length_around, work_length};
pub use pairs::{deep_pair, device_of, full_pair, pair, refusing_pair, small_pair};
pub use raw::{
    antichain, crowded_sheet, full_sheet, mixed_sheet, random_raw, random_sheet, sheet_of_size, Raw,
};
pub use runs::{random_record, random_report};
pub use scripts::{script_call, script_length};
pub use walks::{
    climbing_sheet, ending_sheet, some_seed, some_wish, still_sheet, walk_call, walk_places,
    walk_seed, walk_sheet, walk_wish,
};

/// splitmix64.
#[derive(Clone, Copy, PartialEq, Eq, Debug)]
pub struct Rng {
    state: u64,
}

impl Rng {
    pub fn new(seed: u64) -> Rng {
        Rng { state: seed }
    }

    /// The next 64 bits.
    pub fn next_u64(&mut self) -> u64 {
        self.state = self.state.wrapping_add(0x9E37_79B9_7F4A_7C15);
        let mut z = self.state;
        z = (z ^ (z >> 30)).wrapping_mul(0xBF58_476D_1CE4_E5B9);
        z = (z ^ (z >> 27)).wrapping_mul(0x94D0_49BB_1331_11EB);
        z ^ (z >> 31)
    }

    /// A number below `bound`, which is not 0.
    pub fn below(&mut self, bound: usize) -> usize {
        (self.next_u64() % bound as u64) as usize
    }

    /// A number from `low` to `high`, both included.
    pub fn range(&mut self, low: usize, high: usize) -> usize {
        low + self.below(high - low + 1)
    }

    /// True once in `bound` times.
    pub fn one_in(&mut self, bound: usize) -> bool {
        self.below(bound) == 0
    }

    pub fn byte(&mut self) -> u8 {
        self.next_u64() as u8
    }

    pub fn word(&mut self) -> u16 {
        self.next_u64() as u16
    }

    /// One of some values.
    pub fn pick<T: Copy>(&mut self, values: &[T]) -> T {
        values[self.below(values.len())]
    }

    /// Some values in random order.
    pub fn shuffle<T>(&mut self, values: &mut [T]) {
        for last in (1..values.len()).rev() {
            let other = self.below(last + 1);
            values.swap(last, other);
        }
    }
}
