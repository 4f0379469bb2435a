//! The key check.

use std::fmt::Debug;

use bliss_box::{challenge_limit, check_key, raw, sample_count, KeyCheck, Refusal, KEY_SUM_LIMIT};

use crate::{DEGREES, N};

/// A key whose sums are worked out by hand.
const KEY: [i32; sample_count(N)] = [1, 2, 3, 4, 0, -1, 2, -3];

fn sum(n: usize, key: &[i32], challenge_length: usize) -> Result<u32, Refusal> {
    check_key(n, key, challenge_length).map(|check| check.sum)
}

fn all_refused<T: Debug>(refusal: Refusal, inputs: &[T], check: impl Fn(&T) -> Result<u32, Refusal>) {
    for input in inputs {
        assert_eq!(check(input), Err(refusal), "{input:?}");
    }
}

#[test]
fn the_known_sums_hold() {
    assert_eq!([1, 2, 3, 4].map(|length| sum(N, &KEY, length)), [44, 104, 172, 208].map(Ok));
    // Row 0 of its table is 392, 196, 0, -196, and each row is the one before moved on, with minus its last entry in front.
    assert_eq!([1, 2, 3, 4].map(|length| sum(N, &[7; 8], length)), [392, 1176, 2156, 2352].map(Ok));
}

#[test]
fn a_key_of_zeros_passes_at_every_degree_and_length() {
    for n in DEGREES {
        for length in [1, 2, challenge_limit(n) - 1, challenge_limit(n)] {
            assert_eq!(sum(n, &vec![0; sample_count(n)], length), Ok(0), "degree {n}, length {length}");
        }
    }
}

#[test]
fn the_greatest_keys_are_refused_from_degree_16_on() {
    for n in DEGREES {
        for value in [7, -7] {
            let answer = check_key(n, &vec![value; sample_count(n)], challenge_limit(n));
            assert_eq!(answer.err(), (n >= 16).then_some(Refusal::KeySum), "degree {n}");
        }
    }
}

/// At length 1 the final sum is the sum of squares of the key.
#[test]
fn the_limit_itself_passes() {
    let mut key = [0; sample_count(512)];
    key[..943].fill(-7);
    (key[943], key[1022]) = (3, -3);
    assert_eq!(sum(512, &key, 1), Ok(46_225));
    assert_eq!(KEY_SUM_LIMIT, 46_225);
    key[1023] = 1;
    assert_eq!(sum(512, &key, 1), Err(Refusal::KeySum));
}

#[test]
fn other_degrees_are_refused() {
    // From 2^63 on twice the degree is cut off; of these the lengths of the keys would fit what is left.
    let degrees = [0, 1, 2, 3, 5, 6, 7, 12, 1023, 1025, 2048, (1 << 32) + N, (1 << 63) + N, 1 << 63, usize::MAX];
    all_refused(Refusal::Degree, &degrees, |n| sum(*n, &KEY, 1));
    all_refused(Refusal::Degree, &degrees, |n| sum(*n, &[], 1));
}

#[test]
fn keys_of_other_lengths_are_refused() {
    let long = [0; 4 * 1024];
    for n in DEGREES {
        let lengths = [0, 1, n, 2 * n - 1, 2 * n + 1, 3 * n, 4 * n];
        all_refused(Refusal::Lengths, &lengths, |length| sum(n, &long[..*length], 1));
    }
}

#[test]
fn challenges_have_1_to_64_positions_and_at_most_n() {
    for n in DEGREES {
        let key = vec![1; sample_count(n)];
        let most = challenge_limit(n);
        let lengths = [0, most + 1, 65, n + 1, n + 64, 1 << 32, (1 << 32) + 1, (1 << 63) + 1, usize::MAX];
        all_refused(Refusal::Challenge, &lengths, |length| sum(n, &key, *length));
        assert_eq!(sum(n, &key, 1), Ok(2 * n as u32));
        assert_ne!(sum(n, &key, most), Err(Refusal::Challenge));
    }
}

#[test]
fn each_value_is_looked_at() {
    for n in DEGREES {
        for place in (0..N).flat_map(|i| [i, n - 1 - i, n + i, 2 * n - 1 - i]) {
            let with = |value| {
                let mut key = vec![0; sample_count(n)];
                key[place] = value;
                sum(n, &key, 1)
            };
            all_refused(Refusal::Key, &[8, -8, 255, 256, 1 << 16, i32::MAX, i32::MIN, i32::MIN + 1], |value| with(*value));
            assert_eq!([-7, 7, 1].map(with), [49, 49, 1].map(Ok), "degree {n}, value {place}");
        }
    }
}

/// The refusals of a check, in their order.
const REFUSALS: [Refusal; 5] = [Refusal::Degree, Refusal::Lengths, Refusal::Challenge, Refusal::Key, Refusal::KeySum];

/// A check that breaks these rules and no other.
fn breaking(rules: &[Refusal]) -> (usize, Vec<i32>, usize) {
    let breaks = |rule| rules.contains(&rule);
    let n = if breaks(Refusal::Degree) { 24 } else { 16 };
    let mut key = vec![if breaks(Refusal::KeySum) { 7 } else { 1 }; sample_count(n) - usize::from(breaks(Refusal::Lengths))];
    if breaks(Refusal::Key) {
        key[n] = 8;
    }
    (n, key, if breaks(Refusal::Challenge) { 65 } else { 13 })
}

#[test]
fn the_first_refusal_of_any_goes_first() {
    for chosen in 0..1 << REFUSALS.len() {
        let rules: Vec<Refusal> = (0..REFUSALS.len()).filter(|i| chosen >> i & 1 == 1).map(|i| REFUSALS[i]).collect();
        let (n, key, length) = breaking(&rules);
        let answer = check_key(n, &key, length);
        assert_eq!(answer.err(), rules.first().copied(), "{rules:?}");
    }
}

/// The call by a pointer that may write, and so would show it, with the values around the key.
fn checked_in_place(n: usize, key: &[i32], length: usize) -> raw::KeyCheck {
    let before = [&[5; N], key, &[-5; N]].concat();
    let mut memory = before.clone();
    // SAFETY: the key is in the middle of the memory.
    let check = unsafe { raw::bliss_check_key(n, memory.as_mut_ptr().add(N), key.len(), length) };
    assert_eq!(memory, before);
    check
}

#[test]
fn a_check_writes_nothing_and_a_refusal_has_no_sum() {
    assert_eq!(checked_in_place(N, &KEY, 3), raw::KeyCheck { refusal: 0, sum: 172 });
    for refusal in REFUSALS {
        let (n, key, length) = breaking(&[refusal]);
        assert_eq!(checked_in_place(n, &key, length), raw::KeyCheck { refusal: refusal.number(), sum: 0 });
    }
}

#[test]
fn sums_are_not_printed() {
    assert_eq!(format!("{:?}", KeyCheck { sum: 12345 }), "KeyCheck { .. }");
}
