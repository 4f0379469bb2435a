//! The exponential by N alone. Each N waits for the value before it, so that values are not worked out side by side.

use bliss_box::raw::bliss_exponential;

use crate::baseline::{exponential_or_refusal, HighWord, Shifted, LIMIT};
use crate::random::Random;
use crate::rounds::{timed, Call, Side};

/// The values of e(N) in one call.
pub const VALUES: usize = 1_000;

pub struct Exponentials {
    numbers: Vec<u64>,
}

impl Exponentials {
    pub fn new() -> Exponentials {
        let mut random = Random::new(1);
        Exponentials { numbers: (0..VALUES).map(|_| random.below(LIMIT as usize + 1) as u64).collect() }
    }
}

impl Call for Exponentials {
    type Left = Vec<u64>;

    fn name(&self) -> String {
        format!("{VALUES} e(N)")
    }

    fn nanoseconds(&mut self, side: Side) -> f64 {
        let numbers = &self.numbers;
        let (nanoseconds, _) = match side {
            Side::Box => timed(|| last(numbers, by_box)),
            Side::Plain => timed(|| last(numbers, exponential_or_refusal::<Shifted>)),
            Side::Fastest => timed(|| last(numbers, exponential_or_refusal::<HighWord>)),
        };
        nanoseconds
    }

    fn left(&mut self, side: Side) -> Vec<u64> {
        let e = match side {
            Side::Box => by_box,
            Side::Plain => exponential_or_refusal::<Shifted>,
            Side::Fastest => exponential_or_refusal::<HighWord>,
        };
        self.numbers.iter().map(|n| e(*n)).collect()
    }
}

fn by_box(n: u64) -> u64 {
    // SAFETY: the call takes any number and no pointer.
    unsafe { bliss_exponential(n) }
}

/// e of the last number. A value is at most 2^62, so its bit 63 adds 0 to the next number, which has to wait for it.
fn last(numbers: &[u64], e: impl Fn(u64) -> u64) -> u64 {
    numbers.iter().fold(0, |before, n| e(n + (before >> 63)))
}
