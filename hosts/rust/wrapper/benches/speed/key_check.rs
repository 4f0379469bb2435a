//! Key checks of keys that pass, at a challenge length.

use bliss_box::{check_key, sample_count, KeyCheck, Refusal};

use crate::baseline;
use crate::random::Random;
use crate::rounds::{timed, Call, Side};

pub struct KeyChecks {
    n: usize,
    length: usize,
    key: Vec<i32>,
}

impl KeyChecks {
    /// A key of few values, so that it passes at any length.
    pub fn new(n: usize, length: usize) -> KeyChecks {
        let mut random = Random::new(n as u64);
        let key = (0..sample_count(n)).map(|_| if random.one_in(16) { random.pick(&[-1, 1]) } else { 0 }).collect();
        KeyChecks { n, length, key }
    }

    fn timed(&self, side: Side) -> (f64, Result<KeyCheck, Refusal>) {
        let KeyChecks { n, length, key } = self;
        match side {
            Side::Box => timed(|| check_key(*n, key, *length)),
            Side::Plain | Side::Fastest => timed(|| baseline::check_key(*n, key, *length)),
        }
    }

    /// How many entries the table of inner products has.
    pub fn entries(&self) -> usize {
        self.n * self.n
    }
}

impl Call for KeyChecks {
    type Left = u32;

    /// It has no product of 128 bits: one baseline is enough.
    const SIDES: &'static [Side] = &[Side::Box, Side::Plain];

    fn name(&self) -> String {
        format!("key check, n = {}, {} positions", self.n, self.length)
    }

    fn nanoseconds(&mut self, side: Side) -> f64 {
        self.timed(side).0
    }

    fn left(&mut self, side: Side) -> u32 {
        self.timed(side).1.expect("a key that passes").sum
    }
}
