//! How long a run is, from which seed it starts and what it prints: by the environment.

use std::env;

/// Enough calls to meet every case that the parts of a run require, and to compare as many as it must, with some to spare: seeds differ.
const DEFAULT_CALLS: u64 = 101_000;

pub const DEFAULT_SEED: u64 = 1;

fn number_from_environment(name: &str, default: u64) -> u64 {
    env::var(name).map_or(default, |text| text.parse().unwrap_or_else(|_| panic!("{name} is not a number: {text}")))
}

fn calls_wanted() -> u64 {
    number_from_environment("BLISS_CALLS", DEFAULT_CALLS)
}

/// The seeds of a part with one for every `share` of the calls that are wanted.
pub fn seeds(share: u64) -> impl Iterator<Item = u64> {
    (number_from_environment("BLISS_SEED", DEFAULT_SEED)..).take(calls_wanted().div_ceil(share) as usize)
}

/// Whether the run is long enough to meet every case. A shorter one is for seeing a failure again.
pub fn is_whole() -> bool {
    calls_wanted() >= DEFAULT_CALLS
}

/// Whether the cases that the run met are to be printed.
pub fn prints_cases() -> bool {
    env::var_os("BLISS_CASES").is_some()
}

/// Whether cases are counted. A short run that prints none is shorter without.
pub fn counts_cases() -> bool {
    is_whole() || prints_cases()
}
