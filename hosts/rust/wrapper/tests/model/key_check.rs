//! The key check, by document 02's S-1: the table of inner products is made whole, and its rows are sorted.

use super::degree_is_served;

/// The largest final sum of a key that passes.
pub const SUM_LIMIT: i64 = 46_225;

/// What a key check takes and is lent.
#[derive(Clone, Debug)]
pub struct Call {
    pub n: usize,
    pub key: Vec<i32>,
    /// The challenge length.
    pub length: usize,
}

#[derive(Clone, Copy, Debug, PartialEq, Eq)]
pub struct Answer {
    pub refusal: u32,
    pub sum: u32,
}

/// The answer, and how the final sum came about where one was made.
pub struct Checked {
    pub answer: Answer,
    pub sums: Option<Sums>,
}

/// A half times X, modulo X^n + 1: each value goes one place on, and the last one to the front with a minus sign.
fn times_x(half: &[i16]) -> Vec<i16> {
    let (last, others) = half.split_last().unwrap();
    let mut product = vec![-last];
    product.extend(others);
    product
}

/// Rotation j of the key, for each j below n: both halves times X^j, as one vector.
fn rotations(key: &[i32]) -> Vec<Vec<i16>> {
    let n = key.len() / 2;
    let mut rotation: Vec<i16> = key.iter().map(|&value| value as i16).collect();
    let mut rotations = Vec::new();
    for _ in 0..n {
        rotations.push(rotation.clone());
        rotation = [times_x(&rotation[..n]), times_x(&rotation[n..])].concat();
    }
    rotations
}

/// No sum leaves 32 bits, so it is not looked whether one does: the compiler then works out several products at once.
fn inner_product(a: &[i16], b: &[i16]) -> i64 {
    let mut sum = 0;
    for (&a, &b) in a.iter().zip(b) {
        sum = i32::wrapping_add(sum, i32::from(a) * i32::from(b));
    }
    i64::from(sum)
}

/// The sum of so many of the largest, with their signs.
fn sum_of_largest(values: &[i64], length: usize) -> i64 {
    let mut values = values.to_vec();
    values.sort_unstable();
    values.iter().rev().take(length).sum()
}

/// The sums of a key at a challenge length.
pub struct Sums {
    /// T, row by row.
    pub table: Vec<Vec<i64>>,
    /// The sum of the largest entries of each row.
    pub rows: Vec<i64>,
    /// The sum of the largest row sums.
    pub final_sum: i64,
}

impl Sums {
    pub fn of(key: &[i32], length: usize) -> Sums {
        let rotations = rotations(key);
        let mut table = Vec::new();
        for a in &rotations {
            table.push(rotations.iter().map(|b| inner_product(a, b)).collect::<Vec<i64>>());
        }
        let rows: Vec<i64> = table.iter().map(|row| sum_of_largest(row, length)).collect();
        let final_sum = sum_of_largest(&rows, length);
        Sums { table, rows, final_sum }
    }
}

/// The first refusal that applies before the sums are made, or 0.
fn refusal_of_key(call: &Call) -> u32 {
    let n = call.n;
    if !degree_is_served(n) {
        return 1;
    }
    if call.key.len() != 2 * n {
        return 2;
    }
    if call.length < 1 || call.length > 64 || call.length > n {
        return 6;
    }
    if call.key.iter().any(|value| !(-7..=7).contains(value)) {
        return 10;
    }
    0
}

pub fn check_key(call: &Call) -> Checked {
    let refusal = refusal_of_key(call);
    if refusal != 0 {
        return Checked { answer: Answer { refusal, sum: 0 }, sums: None };
    }
    let sums = Sums::of(&call.key, call.length);
    let answer = if sums.final_sum > SUM_LIMIT {
        Answer { refusal: 13, sum: 0 }
    } else {
        Answer { refusal: 0, sum: sums.final_sum as u32 }
    };
    Checked { answer, sums: Some(sums) }
}
