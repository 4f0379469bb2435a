//! Key checks.

use super::respond::{key_near, GREATEST_KEY};
use super::{either_sign, positions, spoil_values, within, wrong_length, FORGED_DEGREES};
use crate::model::key_check::{check_key, Call, SUM_LIMIT};
use crate::random::Random;

/// The refusals of a key check, in an order in which they can be brought about: the sum while the call is right apart from it,
/// and the content of the key before its length.
const REFUSALS: [u32; 5] = [13, 10, 6, 2, 1];

/// Keys at the limit: the degree, the length, the greatest value of keys that are made at random, and the seeds of one with a
/// final sum of 46,225 and of one with 46,226. They were found by trying.
const AT_LIMIT: [(usize, usize, i32, [u64; 2]); 3] =
    [(32, 21, 6, [17_055, 11_900]), (64, 27, 3, [5_654, 1_969]), (128, 63, 1, [54_321, 4_215])];

/// A call with everything right, apart from a degree that may be a refused one.
pub fn right(random: &mut Random, degree: usize) -> Call {
    let length = positions(random, degree);
    let mut call = Call { n: degree, key: key(random, degree, length), length };
    if random.one_in(8) {
        put_at_limit(&mut call, false);
    }
    lighten(random, &mut call);
    call
}

/// A call of a small degree that may be right, or refused for one or more reasons, and these reasons.
pub fn any(random: &mut Random) -> (Call, Vec<u32>) {
    if random.one_in(4) {
        // The sum alone: it comes last, and another refusal hides it.
        let degree = small_degree(random);
        let mut call = right(random, degree);
        let reasons = if spoil(random, &mut call, 13) { vec![13] } else { vec![] };
        return (call, reasons);
    }
    super::any(random, small_degree, right, &REFUSALS, spoil)
}

/// A degree at which the model is fast: it takes a time that grows with the cube of it.
fn small_degree(random: &mut Random) -> usize {
    random.pick(&[4, 8, 16, 16, 16, 32, 32, 32, 64, 128])
}

fn key(random: &mut Random, degree: usize, length: usize) -> Vec<i32> {
    let values = 2 * degree;
    match random.below(8) {
        0 => vec![0; values],
        1 => (0..values).map(|_| within(random, GREATEST_KEY)).collect(),
        2 => greatest(random, degree),
        3 | 4 => {
            let twos = random.pick(&[0, degree / 32]);
            bliss_key(random, degree, twos)
        }
        _ => {
            // The final sum of a key of random signs is some two to four times the A of its challenges.
            let wanted = SUM_LIMIT as usize / (1 + random.below(5));
            key_near(random, values, length, wanted)
        }
    }
}

/// A key of the greatest values: of one sign, of signs by turns, or of any.
pub fn greatest(random: &mut Random, degree: usize) -> Vec<i32> {
    let values = 2 * degree;
    let first = either_sign(random, GREATEST_KEY);
    match random.below(3) {
        0 => vec![first; values],
        1 => (0..values).map(|place| if place % 2 == 0 { first } else { -first }).collect(),
        _ => (0..values).map(|_| either_sign(random, GREATEST_KEY)).collect(),
    }
}

/// A key as BLISS makes them: s1 has values of 1 and 2 alone, and s2 is 2g + 1 for a g like it.
pub fn bliss_key(random: &mut Random, degree: usize, twos: usize) -> Vec<i32> {
    let mut key = [sparse(random, degree, twos), sparse(random, degree, twos)].concat();
    for (place, value) in key[degree..].iter_mut().enumerate() {
        *value = 2 * *value + i32::from(place == 0);
    }
    key
}

/// Three values in ten at 1 or -1, so many at 2 or -2, and the others at 0.
fn sparse(random: &mut Random, degree: usize, twos: usize) -> Vec<i32> {
    let mut rest: Vec<usize> = (0..degree).collect();
    let mut values = vec![0; degree];
    for turn in 0..twos + (3 * degree).div_ceil(10) {
        let place = rest.swap_remove(random.below(rest.len()));
        values[place] = either_sign(random, if turn < twos { 2 } else { 1 });
    }
    values
}

/// Gives the call a key whose final sum is at the limit or one over it, and its length, where one is known at the degree.
fn put_at_limit(call: &mut Call, over: bool) {
    for (n, length, greatest, seeds) in AT_LIMIT {
        if n == call.n {
            let mut random = Random::new(seeds[usize::from(over)]);
            call.key = (0..2 * n).map(|_| within(&mut random, greatest)).collect();
            call.length = length;
        }
    }
}

/// Takes values out of the key until it passes, each time about as many as its sum is too great by.
fn lighten(random: &mut Random, call: &mut Call) {
    while let Some(sums) = check_key(call).sums.filter(|sums| sums.final_sum > SUM_LIMIT) {
        for value in &mut call.key {
            if random.below(sums.final_sum as usize) >= SUM_LIMIT as usize {
                *value = 0;
            }
        }
    }
}

/// Changes the call so that this refusal applies to it. False where the call has no room for it.
pub fn spoil(random: &mut Random, call: &mut Call, refusal: u32) -> bool {
    match refusal {
        1 => call.n = random.pick(&FORGED_DEGREES),
        2 => {
            let right = call.key.len().max(1);
            call.key.resize(wrong_length(random, right), 1);
        }
        6 => {
            let beyond = call.n.min(64) + 1;
            call.length = random.pick(&[0, 0, beyond, beyond, 65, call.n + 1, 1 << 32, (1 << 32) + 1, 1 << 63, usize::MAX]);
        }
        10 => return spoil_values(random, &mut call.key, GREATEST_KEY),
        13 => return spoil_sum(random, call),
        _ => unreachable!("a key check has no refusal {refusal}"),
    }
    true
}

/// A key of too great a sum, where the degree and the length have one.
fn spoil_sum(random: &mut Random, call: &mut Call) -> bool {
    call.key = if random.one_in(2) { greatest(random, call.n) } else { key(random, call.n, call.length) };
    if random.one_in(8) {
        put_at_limit(call, true);
    }
    check_key(call).answer.refusal == 13
}
