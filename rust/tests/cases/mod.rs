//! Random material, and what this simulator says of it, as theorems about the definitions. Each sort
//! counts what it has met, so that it fails if it met something too seldom.

mod called_list;
pub mod files;
mod list_theorems;
pub mod lists;
pub mod states;

use cup_check::generate::Family;

/// Families whose plans are small enough to be worked out by the prover in a second or so.
pub const SMALL: [Family; 5] = [
    Family::Tiny,
    Family::Together,
    Family::Bound,
    Family::Range,
    Family::Slow,
];

/// How many times as much material the variable CUP_CASES asks for.
pub fn times() -> usize {
    std::env::var("CUP_CASES").map_or(1, |times| times.parse().expect("CUP_CASES is a number"))
}

/// What to draw random material from, one after the other until there is enough. Their number is
/// bounded, so that material which never comes is missed and not waited for.
pub const SEEDS: std::ops::Range<u64> = 0..2_000;
