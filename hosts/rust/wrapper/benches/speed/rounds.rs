//! Calls timed in rounds. In each round the box and the baselines make every call in turn, so that drift of the machine hits all
//! alike.

use std::hint::black_box;
use std::time::Instant;

pub const ROUNDS: usize = 1_001;

/// Who makes a call.
#[derive(Clone, Copy, Debug)]
pub enum Side {
    /// The archive.
    Box,
    /// The baseline.
    Plain,
    /// The baseline in its fastest form.
    Fastest,
}

/// A call that the box and one baseline or both can make, or several calls of one kind.
pub trait Call {
    /// Those that make it, the box first.
    const SIDES: &'static [Side] = &[Side::Box, Side::Plain, Side::Fastest];

    /// All that the call answers and writes.
    type Left: PartialEq;

    fn name(&self) -> String;

    /// Makes the call. Gives its time in nanoseconds.
    fn nanoseconds(&mut self, side: Side) -> f64;

    /// Makes the call over buffers that hold something else. Gives what is left.
    fn left(&mut self, side: Side) -> Self::Left;
}

/// The nanoseconds of some work, and what it gave.
pub fn timed<T>(work: impl FnOnce() -> T) -> (f64, T) {
    let start = Instant::now();
    let result = black_box(work());
    (start.elapsed().as_nanos() as f64, result)
}

/// The times of one call in nanoseconds: of each side that makes it, one for each round.
#[derive(Default)]
pub struct Times([Vec<f64>; 3]);

impl Times {
    fn of(&self, side: Side) -> &[f64] {
        &self.0[side as usize]
    }

    /// The median time of the box.
    pub fn median(&self) -> f64 {
        median(self.of(Side::Box).to_vec())
    }

    /// The time of the box over that of another side, if this makes the call.
    pub fn ratio_to(&self, side: Side) -> Option<f64> {
        let others = self.of(side);
        (!others.is_empty()).then(|| median_ratio(self.of(Side::Box), others))
    }

    /// The time of the box over its time of another call, which was timed in the same rounds.
    pub fn ratio_to_call(&self, other: &Times) -> f64 {
        median_ratio(self.of(Side::Box), other.of(Side::Box))
    }
}

/// The median of the rounds' ratios: what slows a whole round down does not change it.
fn median_ratio(times: &[f64], others: &[f64]) -> f64 {
    median(times.iter().zip(others).map(|(time, other)| time / other).collect())
}

fn median(mut values: Vec<f64>) -> f64 {
    values.sort_by(f64::total_cmp);
    values[values.len() / 2]
}

/// Times calls, after it is seen that all sides leave the same.
pub fn compare<C: Call>(calls: &mut [C]) -> Vec<Times> {
    calls.iter_mut().for_each(agree);
    let mut times: Vec<Times> = calls.iter().map(|_| Times::default()).collect();
    for _ in 0..ROUNDS {
        for &side in C::SIDES {
            for (call, times) in calls.iter_mut().zip(&mut times) {
                times.0[side as usize].push(call.nanoseconds(side));
            }
        }
    }
    times
}

fn agree<C: Call>(call: &mut C) {
    let left = call.left(Side::Box);
    for &side in &C::SIDES[1..] {
        assert!(
            left == call.left(side),
            "{}: the box and the baseline {side:?} differ in what they answer or write",
            call.name()
        );
    }
}
