//! Blank responses by hand, as document 02's S-5 has them: respond calls with an empty challenge.

use super::{changed, noise_at_the_limit, plain, tests};
use crate::calls::DEGREES;
use crate::comparison::Comparison;
use crate::coverage::{ACCEPTED, BY_WORD_1, BY_Z, BY_Z1};
use crate::cut_exponential::cut_exponential;
use crate::model::exponential;
use crate::model::respond::{Answer, Call};

/// The entries of its list.
const ENTRIES: usize = 47;

/// A name, the refusal that the call then gets, and what spoils it.
type Spoilt = (&'static str, u32, fn(&mut Call));

/// What is asked of a blank call as of any other, though it makes no use of the key.
const SPOILT: [Spoilt; 17] = [
    ("degree 12", 1, |call| call.session.degree = 12),
    ("deviation 108", 16, |call| call.session.deviation = 108),
    ("deviation 107", 17, |call| call.session.deviation = 107),
    ("no key", 2, |call| call.key.clear()),
    ("a key of 2n - 1", 2, |call| call.key.truncate(call.key.len() - 1)),
    ("a key of 2n + 1", 2, |call| call.key.push(0)),
    ("y of 2n - 1", 2, |call| call.y.truncate(call.y.len() - 1)),
    ("z of 2n - 1", 2, |call| call.z.truncate(call.z.len() - 1)),
    ("another polynomial table", 4, |call| call.polynomial[20] += 1),
    ("position n", 6, |call| call.challenge.push(call.session.degree as u32)),
    ("two words", 7, |call| call.words.truncate(2)),
    ("46 entries", 8, |call| call.list.truncate(46)),
    ("nothing drawn", 9, |call| call.session.drawn = 0),
    ("drawn 2", 9, |call| call.session.drawn = 2),
    ("key value 8", 10, |call| call.key[0] = 8),
    ("the last key value -8", 10, |call| *call.key.last_mut().unwrap() = -8),
    ("y value 2,816", 11, |call| call.y[0] = 2816),
];

pub fn blank_responses_by_hand_are_the_models(comparison: &Comparison) {
    for n in DEGREES {
        z_is_y(comparison, n);
        word_1_and_z1_decide(comparison, n);
        all_is_asked_for(comparison, n);
    }
    the_limit_of_z_decides(comparison);
}

/// A right call with all words 0 and a list that is just long enough.
fn blank(n: usize, key: Vec<i32>, y: Vec<i32>) -> Call {
    Call { challenge: vec![], list: vec![9; ENTRIES], ..plain(n, key, y) }
}

/// Noise that passes, with the greatest values at the ends of its halves.
fn noise(n: usize) -> Vec<i32> {
    let mut y = [0, 1, -1, 2].repeat(n / 2);
    for (place, value) in [(0, 2100), (n - 1, -2100), (n, -2815), (2 * n - 1, 2815)] {
        y[place] = value;
    }
    y
}

/// The degree, the three words, the polynomial table twice and the bit: no entry of kind 8.
fn list_of(n: usize, bit: bool) -> Vec<u32> {
    let polynomial = || (0..21).rev().map(|place| (4, place));
    let words = (0..3).map(|place| (2, place));
    let entries = [(7, n)].into_iter().chain(words).chain(polynomial()).chain(polynomial()).chain([(9, usize::from(bit))]);
    entries.map(|(kind, place)| (kind << 24) + place as u32).collect()
}

/// By both signs, and with keys that agree nowhere, z is y; and zero where word 1 rejects.
fn z_is_y(comparison: &Comparison, n: usize) {
    let keys = [vec![0; 2 * n], vec![7; 2 * n], vec![-7; 2 * n], [1, -2, 3, -4].repeat(n / 2)];
    for (key, word_0) in keys.iter().flat_map(|key| [0, 1, u64::MAX - 1, u64::MAX].map(|word_0| (key, word_0))) {
        for (word_1, bit, z) in [(0, true, noise(n)), (u64::MAX, false, vec![0; 2 * n])] {
            let name = format!("blank, n = {n}, key {:?} and so on, words {word_0}, {word_1}", &key[..4]);
            let call = changed(&blank(n, key.clone(), noise(n)), |call| call.words = vec![word_0, word_1, 0]);
            let responded = comparison.respond(&name, &call);
            assert_eq!(responded.answer, Answer { refusal: 0, bit, entries: ENTRIES }, "{name}");
            assert_eq!((responded.z, responded.list), (z, list_of(n, bit)), "{name}");
        }
    }
}

/// A is 0 with any key, so N1 is 46,225, and N2 is 0, by which every word 2 passes.
fn word_1_and_z1_decide(comparison: &Comparison, n: usize) {
    let right = blank(n, vec![7; 2 * n], noise(n));
    let tests = |name: String, change: &dyn Fn(&mut Call)| {
        tests(comparison, &format!("blank, n = {n}, {name}"), &changed(&right, change))
    };
    let e = exponential(46_225);
    assert_eq!(tests("word 1 = e(46,225) - 1".into(), &|call| call.words[1] = e - 1), ACCEPTED);
    assert_eq!(tests("word 1 = e(46,225)".into(), &|call| call.words[1] = e), BY_WORD_1);
    let cut_e = cut_exponential(46_225);
    assert_eq!(tests("word 1 = the cut e(46,225)".into(), &|call| call.words[1] = cut_e), ACCEPTED);
    assert_eq!(tests("word 2 = 2^64 - 1".into(), &|call| call.words[2] = u64::MAX), ACCEPTED);
    for (place, value) in [(0, 2101), (0, -2101), (n - 1, 2101), (n - 1, -2101)] {
        assert_eq!(tests(format!("value {place} of z1 at {value}"), &|call| call.y[place] = value), BY_Z1);
    }
}

fn the_limit_of_z_decides(comparison: &Comparison) {
    for (name, mut y) in noise_at_the_limit() {
        let tests = |name: String, y: &[i32]| tests(comparison, &name, &blank(512, vec![-7; 1024], y.to_vec()));
        assert_eq!(tests(format!("blank, Z = 165,688,384, {name}"), &y), ACCEPTED);
        *y.last_mut().unwrap() = -1;
        assert_eq!(tests(format!("blank, Z = 165,688,385, {name}"), &y), BY_Z);
    }
}

fn all_is_asked_for(comparison: &Comparison, n: usize) {
    for (name, refusal, spoil) in SPOILT {
        let name = format!("blank, n = {n}, {name}");
        let responded = comparison.respond(&name, &changed(&blank(n, vec![7; 2 * n], noise(n)), spoil));
        assert_eq!(responded.answer.refusal, refusal, "{name}");
    }
}
