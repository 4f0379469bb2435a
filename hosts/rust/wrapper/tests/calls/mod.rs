//! Calls to compare: served ones, at the edges of every rule, and what makes them refused.

pub mod breach;
pub mod draw;
pub mod key_check;
pub mod record;
pub mod respond;

use std::fmt::Display;

use crate::model::RESPONSE_DEVIATION;
use crate::random::Random;

/// The bound of 62 bits of a word: 2^62.
const BOUND: u64 = 1 << 62;

pub const DEGREES: [usize; 9] = [4, 8, 16, 32, 64, 128, 256, 512, 1024];

/// Degrees that are refused, small enough for a call that has everything else right.
const NEAR_DEGREES: [usize; 10] = [0, 1, 2, 3, 5, 6, 12, 96, 1023, 2048];

/// Degrees that only a forged session has. Some of them wrap to a degree that is served, or to 0, when cut or doubled.
pub const FORGED_DEGREES: [usize; 9] = [0, 12, 1 << 16, 1 << 32, (1 << 32) + 4, 1 << 62, 1 << 63, (1 << 63) + 4, usize::MAX];

pub const DEVIATIONS: [u64; 4] = [107, 215, 250, 271];

/// Deviations that are refused: beside those that are served, and such as are taken for them when cut, 15 for 271 in eight bits.
pub const FORGED_DEVIATIONS: [u64; 15] =
    [0, 15, 106, 108, 214, 216, 249, 251, 270, 272, (1 << 8) + 215, (1 << 32) + 215, 1 << 63, (1 << 63) + 271, u64::MAX];

/// What a session's `drawn` may hold beside 1: by none of these is anything drawn. Some of them are odd, or 1 when cut.
pub const NOT_DRAWN: [u64; 9] = [0, 2, 3, 256, 257, (1 << 32) + 1, 1 << 63, (1 << 63) + 1, u64::MAX];

/// A degree: each is half as likely as the one below it, so that most calls are short.
pub fn degree(random: &mut Random) -> usize {
    DEGREES[random.word().trailing_zeros().min(8) as usize]
}

/// A degree for a list of calls, or a record: of these there are fewer, so that the larger degrees are somewhat likelier.
pub fn degree_of_list(random: &mut Random) -> usize {
    if random.one_in(8) {
        random.pick(&DEGREES)
    } else {
        degree(random)
    }
}

/// A deviation for a list of calls: most often the one that has responses.
pub fn deviation_of_list(random: &mut Random) -> u64 {
    if random.one_in(4) {
        random.pick(&DEVIATIONS)
    } else {
        RESPONSE_DEVIATION
    }
}

/// A call that may be right, or refused for one or more of these reasons, and the reasons. They are brought about in their order.
fn any<C>(
    random: &mut Random,
    degree: fn(&mut Random) -> usize,
    right: fn(&mut Random, usize) -> C,
    refusals: &[u32],
    spoil: fn(&mut Random, &mut C, u32) -> bool,
) -> (C, Vec<u32>) {
    let near = random.one_in(40);
    let degree = if near { random.pick(&NEAR_DEGREES) } else { degree(random) };
    let mut call = right(random, degree);
    let mut reasons = Vec::new();
    if near {
        reasons.push(1);
    }
    let wanted = random.pick(&[0, 0, 0, 1, 1, 2, 3, refusals.len()]);
    for &refusal in refusals {
        if random.below(refusals.len()) < wanted && spoil(random, &mut call, refusal) {
            reasons.push(refusal);
        }
    }
    (call, reasons)
}

/// What a session's `drawn` may hold.
pub fn drawn_numbers() -> impl Iterator<Item = u64> {
    [1].into_iter().chain(NOT_DRAWN)
}

/// What a session's `drawn` holds: 1 as often as not.
fn drawn(random: &mut Random) -> u64 {
    if random.one_in(2) {
        1
    } else {
        random.pick(&NOT_DRAWN)
    }
}

/// How many positions a challenge that is not empty has: one, as many as may be, or any number between.
fn positions(random: &mut Random, degree: usize) -> usize {
    let most = degree.min(64);
    match random.below(6) {
        0 => 1,
        1 => most,
        2 => most / 2,
        _ => 1 + random.below(most.max(1)),
    }
}

/// All places of a small vector, and of a larger one those at the ends of its halves.
pub fn places(n: usize) -> Vec<usize> {
    if n == 4 {
        (0..8).collect()
    } else {
        vec![0, n - 1, n, 2 * n - 1]
    }
}

/// The first of these refusals, in the order in which they are tested, that is among the reasons, or 0.
pub fn first(reasons: &[u32], refusals: &[u32]) -> u32 {
    refusals.iter().copied().find(|refusal| reasons.contains(refusal)).unwrap_or(0)
}

/// Fails where a call was not refused, or served, as its reasons have it.
pub fn assert_as_made(origin: &dyn Display, refusal: u32, reasons: &[u32], refusals: &[u32]) {
    assert_eq!(refusal, first(reasons, refusals), "{origin}: the call is not as it was made");
}

/// The low 62 bits of a word below any top two bits.
fn top_bits(random: &mut Random, word: u64) -> u64 {
    word % BOUND + (random.pick(&[0, 0, 1, 2, 3]) << 62)
}

/// A number from -`bound` to `bound`.
fn within(random: &mut Random, bound: i32) -> i32 {
    random.below(2 * bound as usize + 1) as i32 - bound
}

fn either_sign(random: &mut Random, value: i32) -> i32 {
    random.pick(&[value, -value])
}

/// A length that is near the right one, and another.
fn wrong_length(random: &mut Random, right: usize) -> usize {
    random.pick(&[right + 1, right.saturating_sub(1), 0, right * 2, right / 2])
}

fn spoil_polynomial(random: &mut Random, polynomial: &mut [u64]) {
    let entry = &mut polynomial[random.below(21)];
    *entry = match random.below(4) {
        0 => *entry + 1,
        1 => *entry - 1,
        2 => *entry ^ 1 << random.below(64),
        _ => u64::MAX - *entry,
    };
}

/// A challenge of one position or more that is refused at this degree.
fn spoil_positions(random: &mut Random, degree: usize, challenge: &mut Vec<u32>) {
    let degree = degree as u32;
    match (random.below(5), challenge.last().copied()) {
        (0, Some(_)) => *challenge.last_mut().unwrap() = random.pick(&[degree, degree, degree + 1, 1 << 16, 1 << 31, u32::MAX]),
        // Two positions are equal.
        (1, Some(last)) => {
            let place = random.below(challenge.len());
            let twice = challenge[place];
            challenge.insert(place, twice);
            if challenge.len() > 64 || challenge.len() > degree as usize {
                challenge.remove(if twice == last { 0 } else { challenge.len() - 1 });
            }
        }
        // One falls.
        (2, Some(_)) if challenge.len() > 1 => {
            let place = 1 + random.below(challenge.len() - 1);
            challenge.swap(place - 1, place);
        }
        // One too many, all of them ascending.
        _ => *challenge = (0..=degree.min(64)).collect(),
    }
}

/// Puts values outside a bound at the first place, the last, any, or several.
fn spoil_values(random: &mut Random, values: &mut [i32], bound: i32) -> bool {
    if values.is_empty() {
        return false;
    }
    let last = values.len() - 1;
    let any = [random.below(last + 1), random.below(last + 1)];
    let places = random.pick(&[[0, 0], [last, last], [0, last], any, [any[0], any[0]]]);
    for place in places {
        values[place] = random.pick(&[bound + 1, -bound - 1, 1 << 12, 1 << 16, i32::MAX, i32::MIN, i32::MIN + bound]);
    }
    true
}

/// Cuts a buffer to fewer values than are asked for.
fn shorten<T>(random: &mut Random, buffer: &mut Vec<T>, asked: usize) -> bool {
    if asked == 0 {
        return false;
    }
    buffer.truncate(random.pick(&[asked - 1, asked - 1, asked / 2, 0]));
    true
}
