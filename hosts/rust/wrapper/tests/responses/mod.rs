//! Single respond calls.

mod blank;

use crate::calls::respond::{GREATEST_KEY, GREATEST_Y, GREATEST_Z1, OTHER_DEVIATIONS};
use crate::calls::{self, places, DEGREES, FORGED_DEVIATIONS, NOT_DRAWN};
use crate::comparison::Comparison;
use crate::coverage::{
    at_every_degree, by_every_session, every_refusal, refused, with_every_drawn, Coverage, ACCEPTED, BLANK_REFUSALS, BY_A,
    BY_COSH, BY_Z, BY_Z1, RESPOND_REFUSALS,
};
use crate::model::respond::{list_asked, product, Call, Responded, Response, WORDS_ASKED};
use crate::model::{Session, POLYNOMIAL, RESPONSE_DEVIATION};
use crate::random::Random;
use crate::run::{self, DEFAULT_SEED};

pub use blank::blank_responses_by_hand_are_the_models;

pub fn responses_are_the_models(comparison: &Comparison) {
    // Blank responses are counted apart: the others must still meet every case without them.
    let mut coverage = Coverage::default();
    let mut blanks = Coverage::default();
    for seed in run::seeds(1) {
        let (call, reasons) = calls::respond::any(&mut Random::new(seed));
        let origin = format!("BLISS_SEED={seed}");
        let responded = comparison.respond(&origin, &call);
        calls::assert_as_made(&origin, responded.answer.refusal, &reasons, &RESPOND_REFUSALS);
        if call.challenge.is_empty() {
            blanks.count_respond(&call, &responded);
            blanks.count_reasons(&reasons, &BLANK_REFUSALS);
        } else {
            coverage.count_respond(&call, &responded);
            coverage.count_reasons(&reasons, &RESPOND_REFUSALS);
        }
    }
    coverage.print("responses");
    blanks.print("blank responses");
    coverage.require(with_every_drawn(&[1, 16, 17, 2, 4, 6, 7, 8].map(refused)));
    for (coverage, refusals) in [(coverage, &RESPOND_REFUSALS[..]), (blanks, &BLANK_REFUSALS[..])] {
        coverage.require_what_is_counted();
        coverage.require(every_refusal(refusals));
        coverage.require(by_every_session(refusals));
        coverage.require(at_every_degree(&["accepted", "rejected"]));
    }
}

/// A call with this key and y, the challenge 0 and all words 0: the product is the key.
fn plain(degree: usize, key: Vec<i32>, y: Vec<i32>) -> Call {
    Call {
        session: Session { degree, deviation: RESPONSE_DEVIATION, drawn: 1 },
        challenge: vec![0],
        polynomial: POLYNOMIAL.to_vec(),
        words: vec![0; WORDS_ASKED],
        key,
        y,
        z: vec![-1; 2 * degree],
        list: vec![9; list_asked(degree, 1)],
    }
}

/// Which of its tests a response passes.
fn tests(comparison: &Comparison, name: &str, call: &Call) -> [bool; 5] {
    let Responded { answer, z, response, .. } = comparison.respond(&name, call);
    let response = response.unwrap_or_else(|| panic!("{name} is refused"));
    assert!(answer.bit || z.iter().all(|&value| value == 0), "{name} leaves z");
    response.tests()
}

/// Document 01's known points: A = 46,225 may pass, 46,226 never; Z = 165,688,384 may pass, 165,688,385 never; e = 0 passes no
/// word 2.
pub fn the_limits_of_a_response_are_the_models(comparison: &Comparison) {
    let tests = |name: &str, key: &[i32], y: &[i32]| tests(comparison, name, &plain(512, key.to_vec(), y.to_vec()));
    let mut key = calls::respond::key_of_46_225();
    let zero = [0; 1024];
    assert_eq!(tests("A = 46,225", &key, &zero), ACCEPTED);
    let multiple: Vec<i32> = key.iter().map(|value| 50 * value).collect();
    assert_eq!(tests("e = 0", &key, &multiple), BY_COSH);
    *key.last_mut().unwrap() = -1;
    assert_eq!(tests("A = 46,226", &key, &zero), BY_A);

    for (name, mut y) in noise_at_the_limit() {
        assert_eq!(tests(&format!("Z = 165,688,384, {name}"), &zero, &y), ACCEPTED);
        *y.last_mut().unwrap() = -1;
        assert_eq!(tests(&format!("Z = 165,688,385, {name}"), &zero, &y), BY_Z);
    }

    // 53 × 2,100² + 2,008² + 45² + 2² + 1 + 1 + 1 + 512 × 2,815² = 2^32.
    let y = halves(&[&[2100; 53][..], &[2008, 45, -2, 1, -1, 1]].concat(), &[2815; 512]);
    assert_eq!(tests("Z = 2^32", &zero, &y), BY_Z);
}

/// Noise for n = 512 whose sum of squares is 165,688,384. Its last value is 0.
fn noise_at_the_limit() -> [(&'static str, Vec<i32>); 2] {
    // 37 × 2,100² + 1,586² + 54² + 8² + 2² + 2² = 165,688,384.
    let in_z1 = halves(&[&[2100; 37][..], &[-1586, 54, -8, 2, -2]].concat(), &[]);
    // 20 × 2,815² + 2,684² + 5² + 1 + 1 + 1 = 165,688,384.
    let in_z2 = halves(&[], &[&[-2815; 20][..], &[2684, -5, 1, -1, 1]].concat());
    [("in z1", in_z1), ("in z2", in_z2)]
}

/// Two halves of 512 values that begin with these, and go on with zeros.
fn halves(first: &[i32], second: &[i32]) -> Vec<i32> {
    [first, second].map(|half| [half, &vec![0; 512 - half.len()]].concat()).concat()
}

/// Document 02's known points: 2,100 and -2,100 may pass in z1, 2,101 and -2,101 never; 2,101 may pass in z2. Each is tried by both
/// signs of the product, and with a y at the value, below it and above it.
pub fn the_limits_of_z1_are_the_models(comparison: &Comparison) {
    for n in DEGREES {
        for place in places(n) {
            for (word_0, part) in [(0, 0), (0, 7), (0, -7), (1, 0), (1, 7), (1, -7)] {
                for value in [2100, -2100, 2101, -2101, GREATEST_Y + part, part - GREATEST_Y] {
                    let name = format!("n = {n}, word 0 = {word_0}, z value {place} at {value}, {part} of it the product's");
                    let call = with_one_value(n, place, value, part, word_0);
                    let expected = if place < n && value.abs() > GREATEST_Z1 { BY_Z1 } else { ACCEPTED };
                    assert_eq!(tests(comparison, &name, &call), expected, "{name}");
                }
            }
        }
    }
}

/// A call whose z is all zero but for one value, a part of which is the product's.
fn with_one_value(n: usize, place: usize, value: i32, part: i32, word_0: u64) -> Call {
    let mut call = plain(n, vec![0; 2 * n], vec![0; 2 * n]);
    call.words[0] = word_0;
    call.key[place] = if word_0 == 1 { -part } else { part };
    call.y[place] = value - part;
    call
}

/// The greatest keys, 64 positions and the greatest y, with the noise along the product: A, Z and I as great as they come.
pub fn the_greatest_sums_are_the_models(comparison: &Comparison) {
    let mut greatest = (0, 0, 0);
    for n in [64, 128, 256, 512, 1024] {
        for challenge in [(0..64).collect(), (n - 64..n).collect(), (0..n).step_by(n as usize / 64).collect::<Vec<u32>>()] {
            for (key, y_sign, word_0) in [(GREATEST_KEY, 1, 0), (-GREATEST_KEY, 1, 1), (GREATEST_KEY, -1, u64::MAX)] {
                let call = along_the_product(n as usize, &challenge, key, y_sign * GREATEST_Y, word_0);
                let responded = comparison.respond(&format!("n = {n}, challenge {challenge:?}, key of {key}"), &call);
                let Response { product_squares: a, response_squares: z, inner, .. } = responded.response.unwrap();
                greatest = (a.max(greatest.0), z.max(greatest.1), inner.abs().max(greatest.2));
            }
        }
    }
    let (a, z, inner) = greatest;
    assert!(a > 390_000_000 && z > 21_000_000_000 && inner > 1 << 31, "the sums are not great: {a}, {z}, {inner}");
}

/// A call with a key of one value, and y of one size, with the signs of the product or against them.
fn along_the_product(n: usize, challenge: &[u32], key: i32, y: i32, word_0: u64) -> Call {
    let key = vec![key; 2 * n];
    let along = product(&key, challenge).iter().map(|&value| if value < 0 { -y } else { y }).collect();
    let mut call = with_challenge(&plain(n, key, along), challenge).1;
    call.words[0] = word_0;
    call
}

/// Each value and each length that is checked, spoilt alone, and each end of what is served: of a call with a position, and of a
/// blank one.
pub fn each_check_alone_is_the_models(comparison: &Comparison) {
    let mut random = Random::new(DEFAULT_SEED);
    for (n, positions) in DEGREES.into_iter().flat_map(|n| [(n, &[1][..]), (n, &[])]) {
        let y = [[0, 1, -1, 2], [2815, -2815, 215, -215]].map(|values| values.repeat(n / 4)).concat();
        let right = calls::respond::over(&mut random, n, positions, &y);
        for (name, call) in spoilt_in_one_place(&right).into_iter().chain(with_wrong_challenges(&right)) {
            let name = format!("n = {n}, positions {positions:?}, {name}");
            let responded = comparison.respond(&name, &call);
            assert_ne!(responded.answer.refusal, 0, "{name} is served");
        }
        for (name, call) in served_at_an_end(&right) {
            let name = format!("n = {n}, positions {positions:?}, {name}");
            let responded = comparison.respond(&name, &call);
            assert_eq!(responded.answer.refusal, 0, "{name} is refused");
        }
    }
}

fn changed(right: &Call, change: impl Fn(&mut Call)) -> Call {
    let mut call = right.clone();
    change(&mut call);
    call
}

fn with_challenge(right: &Call, challenge: &[u32]) -> (String, Call) {
    let call = changed(right, |call| {
        call.challenge = challenge.to_vec();
        call.list.resize(list_asked(call.session.degree, challenge.len()), 0);
    });
    (format!("challenge {challenge:?}"), call)
}

fn served_at_an_end(right: &Call) -> Vec<(String, Call)> {
    let n = right.session.degree;
    let last = n as u32 - 1;
    let most = n.min(64) as u32;
    let mut served = vec![("nothing spoilt".into(), right.clone())];
    let ends = [vec![], vec![0], vec![last], vec![0, last], (0..most).collect(), (n as u32 - most..n as u32).collect()];
    served.extend(ends.iter().map(|challenge| with_challenge(right, challenge)));
    for place in places(n) {
        for value in [-7, 7] {
            served.push((format!("key value {place} at {value}"), changed(right, |call| call.key[place] = value)));
        }
        for value in [-2815, 2815] {
            served.push((format!("y value {place} at {value}"), changed(right, |call| call.y[place] = value)));
        }
    }
    let least = list_asked(n, right.challenge.len());
    for length in [least, least + 1] {
        served.push((format!("list of {length}"), changed(right, |call| call.list.resize(length, 0))));
    }
    for length in [WORDS_ASKED, WORDS_ASKED + 1] {
        served.push((format!("{length} words"), changed(right, |call| call.words.resize(length, 0))));
    }
    served
}

fn spoilt_in_one_place(right: &Call) -> Vec<(String, Call)> {
    let n = right.session.degree;
    let mut spoilt = Vec::new();
    let mut add = |name: String, spoil: &dyn Fn(&mut Call)| spoilt.push((name, changed(right, spoil)));
    for degree in [0, n - 1, n + 1, 2048, n + (1 << 32), n + (1 << 63)] {
        add(format!("degree {degree}"), &|call| call.session.degree = degree);
    }
    for deviation in FORGED_DEVIATIONS.into_iter().chain(OTHER_DEVIATIONS) {
        add(format!("deviation {deviation}"), &|call| call.session.deviation = deviation);
    }
    for drawn in NOT_DRAWN {
        add(format!("drawn {drawn}"), &|call| call.session.drawn = drawn);
    }
    for place in 0..21 {
        add(format!("entry {place} too great"), &|call| call.polynomial[place] += 1);
        add(format!("entry {place} too small"), &|call| call.polynomial[place] -= 1);
    }
    for length in [0, 20, 22] {
        add(format!("polynomial table of {length}"), &|call| call.polynomial.resize(length, 0));
    }
    for length in [0, n, 2 * n - 1, 2 * n + 1, 4 * n] {
        add(format!("y of {length}"), &|call| call.y.resize(length, 0));
        add(format!("z of {length}"), &|call| call.z.resize(length, 0));
        add(format!("key of {length}"), &|call| call.key.resize(length, 0));
    }
    for length in [0, WORDS_ASKED - 1] {
        add(format!("{length} words"), &|call| call.words.truncate(length));
    }
    for length in [0, list_asked(n, right.challenge.len()) - 1] {
        add(format!("list of {length}"), &|call| call.list.truncate(length));
    }
    for place in places(n) {
        for value in [8, -8, 256, i32::MAX, i32::MIN] {
            add(format!("key value {place} at {value}"), &|call| call.key[place] = value);
        }
        for value in [2816, -2816, 1 << 16, i32::MAX, i32::MIN] {
            add(format!("y value {place} at {value}"), &|call| call.y[place] = value);
        }
    }
    add("all slices empty".into(), &|call| *call = calls::respond::with_nothing_lent(call.session));
    spoilt
}

/// Each with a list that is long enough for it.
fn with_wrong_challenges(right: &Call) -> Vec<(String, Call)> {
    let n = right.session.degree as u32;
    let most = n.min(64);
    let twice: Vec<u32> = (0..most - 1).chain([most - 2]).collect();
    let beyond: Vec<u32> = (0..most - 1).chain([n]).collect();
    let challenges =
        [vec![n], vec![n + 1], vec![u32::MAX], vec![2, 2], vec![3, 2], vec![1, 0, 2], (0..=most).collect(), twice, beyond];
    challenges.iter().map(|challenge| with_challenge(right, challenge)).collect()
}
