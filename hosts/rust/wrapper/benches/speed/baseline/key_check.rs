//! The key check.

use bliss_box::{KeyCheck, Refusal};

use super::refusals::{check_key_sum, check_key_values};

/// The greatest degree.
const ROOM: usize = 1024;

/// Entries and row sums are below 2^23 in size.
const BITS: u32 = 23;

/// The final sum of a key at a challenge length.
#[inline(never)]
pub fn check_key(n: usize, key: &[i32], length: usize) -> Result<KeyCheck, Refusal> {
    check_key_values(n, key, length)?;
    let sum = final_sum(n, key, length as i32) as u32;
    check_key_sum(sum)?;
    Ok(KeyCheck { sum })
}

/// Of each row the k largest entries, and of these sums the k largest. One row is held at a time.
fn final_sum(n: usize, key: &[i32], k: i32) -> i32 {
    let (mut row, mut sums) = ([0; ROOM], [0; ROOM]);
    let (row, sums) = (&mut row[..n], &mut sums[..n]);
    first_row(n, key, row);
    for sum in sums.iter_mut() {
        *sum = largest_sum(row, k);
        move_on(row);
    }
    largest_sum(sums, k)
}

/// The inner products of the key and its rotations: what wraps is subtracted.
fn first_row(n: usize, key: &[i32], row: &mut [i32]) {
    for (c, entry) in row.iter_mut().enumerate() {
        *entry = key.chunks_exact(n).map(|s| inner_product(s, &s[c..]) - inner_product(&s[n - c..], s)).sum();
    }
}

/// Of as many values as the shorter one has.
fn inner_product(a: &[i32], b: &[i32]) -> i32 {
    a.iter().zip(b).map(|(a, b)| a * b).sum()
}

/// Makes a row the next one: its entries one place on, with minus the last in front.
fn move_on(row: &mut [i32]) {
    row.rotate_right(1);
    row[0] = -row[0];
}

/// The sum of the k largest: k times the k-th largest, and what the others are over it.
fn largest_sum(values: &[i32], k: i32) -> i32 {
    let kth = kth_largest(values, k);
    k * kth + values.iter().map(|value| (value - kth).max(0)).sum::<i32>()
}

/// The k-th largest, bit by bit: a bit is taken where k values reach it. Those below it are counted, since a comparison gives -1
/// for each of them at once.
fn kth_largest(values: &[i32], k: i32) -> i32 {
    (0..=BITS).rev().fold(-(1 << BITS), |t, bit| {
        let next = t + (1 << bit);
        let below: i32 = values.iter().map(|value| i32::from(*value < next)).sum();
        if values.len() as i32 - below >= k {
            next
        } else {
            t
        }
    })
}
