//! Key checks, and what they promise of a key that passes.

mod promise;

use crate::calls::{self, key_check::bliss_key, places, DEGREES};
use crate::comparison::Comparison;
use crate::coverage::{at_degree, every_refusal, refused, Coverage, KEY_CHECK_REFUSALS};
use crate::model::key_check::{Answer, Call};
use crate::random::Random;
use crate::run::{self, DEFAULT_SEED};
use promise::{every_challenge_of, Promise};

/// The degrees at which the model takes milliseconds for a key, and more.
const LARGE_DEGREES: [usize; 3] = [256, 512, 1024];

pub fn small_key_checks_are_the_models(comparison: &Comparison) {
    let mut coverage = Coverage::default();
    let mut promise = Promise::new(comparison);
    for seed in run::seeds(20) {
        let mut random = Random::new(seed);
        let origin = format!("BLISS_SEED={seed}");
        let (call, reasons) = calls::key_check::any(&mut random);
        let checked = comparison.key_check(&origin, &call);
        calls::assert_as_made(&origin, checked.answer.refusal, &reasons, &KEY_CHECK_REFUSALS);
        coverage.count_key_check(&call, &checked);
        coverage.count_reasons(&reasons, &KEY_CHECK_REFUSALS);
        if checked.answer.refusal == 0 {
            promise.respond(&mut random, &origin, &call, &checked);
        }
    }
    coverage.print("key checks of small degrees");
    coverage.require_what_is_counted();
    coverage.require(every_refusal(&KEY_CHECK_REFUSALS));
    let small = DEGREES.into_iter().filter(|n| !LARGE_DEGREES.contains(n));
    coverage.require(small.clone().map(|n| at_degree("passes", n)));
    // Below them no key has a sum over the limit.
    coverage.require(small.clone().filter(|&n| n >= 16).map(|n| at_degree(&refused(13), n)));
    promise.coverage.print("responses with keys of small degrees");
    promise.coverage.require_what_is_counted();
    promise.coverage.require(small.map(|n| at_degree("responses", n)));
}

/// At each degree a key that passes, and one of too great a sum.
pub fn large_key_checks_are_the_models(comparison: &Comparison) {
    let mut promise = Promise::new(comparison);
    for (seed, n) in run::seeds(60_000).flat_map(|seed| LARGE_DEGREES.map(|n| (seed, n))) {
        let mut random = Random::new(seed);
        let origin = format!("BLISS_SEED={seed}, n = {n}");
        let mut call = calls::key_check::right(&mut random, n);
        let checked = comparison.key_check(&origin, &call);
        assert_eq!(checked.answer.refusal, 0, "{origin}: the call is not as it was made");
        promise.respond(&mut random, &origin, &call, &checked);

        // At length 1 a degree of 256 has no such sum.
        call.length = call.length.max(2);
        call.key = calls::key_check::greatest(&mut random, n);
        let checked = comparison.key_check(&origin, &call);
        assert_eq!(checked.answer.refusal, 13, "{origin}: a key of the greatest values passes");
    }
    promise.coverage.print("responses with keys of large degrees");
    promise.coverage.require(LARGE_DEGREES.map(|n| at_degree("responses", n)));
}

/// Sums that are known: by hand, at the limit, and the greatest; and each end of what is served.
pub fn the_limits_of_a_key_check_are_the_models(comparison: &Comparison) {
    let mut random = Random::new(DEFAULT_SEED);
    let mut promise = Promise::new(comparison);
    let mut passes = |name: &str, key: &[i32], length: usize, sum: u32| {
        let call = call_with(key, length);
        let checked = comparison.key_check(&name, &call);
        assert_eq!(checked.answer, Answer { refusal: 0, sum }, "{name}, n = {}, length {length}", call.n);
        promise.respond(&mut random, &name, &call, &checked);
    };
    let refused = |name: &str, key: &[i32], length: usize| {
        let checked = comparison.key_check(&name, &call_with(key, length));
        assert_eq!(checked.answer, Answer { refusal: 13, sum: 0 }, "{name}, length {length}");
        checked.sums.expect("a sum that is refused").final_sum
    };
    for (length, sum) in [(1, 44), (2, 104), (3, 172)] {
        passes("a key by hand", &[1, 2, 3, 4, 0, -1, 2, -3], length, sum);
    }
    // A row has 196 on the diagonal and 98 on each side of it; the first and the last have -98 at their other end.
    for n in DEGREES {
        let key = key_of_ends(n);
        passes("a key of values at its ends", &key, 1, 196);
        passes("a key of values at its ends", &key, n.min(64), 392 * 64.min(n as u32 - 1));
    }

    // At length 1 the sum is that of the key's squares.
    let mut key = calls::respond::key_of_46_225();
    passes("a key of squares 46,225", &key, 1, 46_225);
    *key.last_mut().unwrap() = -1;
    assert_eq!(refused("a key of squares 46,226", &key, 1), 46_226);

    // Found by trying seeds.
    let bliss_key = |seed: u64| bliss_key(&mut Random::new(seed), 512, 0);
    passes("a key of sum 46,225", &bliss_key(5_945), 23, 46_225);
    assert_eq!(refused("a key of sum 46,226", &bliss_key(1_661), 23), 46_226);

    passes("a key of 0", &[0; 1024], 23, 0);
    let greatest = refused("a key of 7", &[7; 2048], 64);
    assert!(greatest > 1 << 28, "the greatest sum is not great: {greatest}");
}

fn call_with(key: &[i32], length: usize) -> Call {
    Call { n: key.len() / 2, key: key.to_vec(), length }
}

/// A key of zeros, but for the greatest values at the ends of its halves.
fn key_of_ends(n: usize) -> Vec<i32> {
    let mut key = vec![0; 2 * n];
    for (place, value) in [(0, 7), (n - 1, -7), (n, -7), (2 * n - 1, 7)] {
        key[place] = value;
    }
    key
}

/// Each value and each length that is checked, spoilt alone.
pub fn each_check_alone_is_the_models(comparison: &Comparison) {
    for n in DEGREES {
        let right = call_with(&key_of_ends(n), 1);
        for (name, call) in spoilt_in_one_place(&right) {
            let checked = comparison.key_check(&format!("n = {n}, {name}"), &call);
            assert_ne!(checked.answer.refusal, 0, "n = {n}, {name} is served");
        }
    }
}

fn changed(right: &Call, change: impl Fn(&mut Call)) -> Call {
    let mut call = right.clone();
    change(&mut call);
    call
}

fn spoilt_in_one_place(right: &Call) -> Vec<(String, Call)> {
    let n = right.n;
    let mut spoilt = Vec::new();
    let mut add = |name: String, spoil: &dyn Fn(&mut Call)| spoilt.push((name, changed(right, spoil)));
    for degree in [0, n - 1, n + 1, 2048, n + (1 << 32), n + (1 << 63)] {
        add(format!("degree {degree}"), &|call| call.n = degree);
    }
    for values in [0, n, 2 * n - 1, 2 * n + 1, 4 * n] {
        add(format!("key of {values}"), &|call| call.key.resize(values, 0));
    }
    for length in [0, n.min(64) + 1, 65, n + 1, 1 << 32, (1 << 32) + 1, 1 << 63, usize::MAX] {
        add(format!("length {length}"), &|call| call.length = length);
    }
    for place in places(n) {
        for value in [8, -8, 256, i32::MAX, i32::MIN] {
            add(format!("key value {place} at {value}"), &|call| call.key[place] = value);
        }
        add(format!("key value {place} at 8, the others at 7"), &|call| {
            call.key.fill(7);
            call.key[place] = 8;
            call.length = n.min(64);
        });
    }
    spoilt
}

/// At small degrees, every challenge of every length.
pub fn no_challenge_has_a_greater_sum(comparison: &Comparison) {
    let mut random = Random::new(DEFAULT_SEED);
    let mut promise = Promise::new(comparison);
    for (n, keys) in [(4, 40), (8, 20), (16, 5)] {
        for number in 0..keys {
            let right = calls::key_check::right(&mut random, n);
            for length in 1..=n {
                let call = changed(&right, |call| call.length = length);
                let origin = format!("n = {n}, key {number}, length {length}");
                let checked = comparison.key_check(&origin, &call);
                if checked.answer.refusal == 0 {
                    promise.respond_to_worst(&mut random, &origin, &call, &checked);
                }
            }
        }
    }
    promise.coverage.print("responses to the worst of all challenges");
    promise.coverage.require([4, 8, 16].into_iter().flat_map(|n| (1..=n).map(move |length| every_challenge_of(length, n))));
}
