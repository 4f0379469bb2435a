//! Draws.

use bliss_box::Deviation;

use super::{drawn, shorten, spoil_polynomial, top_bits, wrong_length};
use super::{BOUND, DEVIATIONS, FORGED_DEGREES, FORGED_DEVIATIONS};
use crate::model::draw::{self, list_asked, words_asked, Attempt, Call};
use crate::model::{exponential_at, Session, POLYNOMIAL};
use crate::random::Random;

/// The refusals of a draw, in an order in which they can be brought about: a length that depends on the limit after the limit,
/// and the content of a table before its length.
const REFUSALS: [u32; 8] = [5, 7, 8, 4, 3, 2, 16, 1];

/// A call with everything right, apart from a degree that may be a refused one.
pub fn right(random: &mut Random, degree: usize) -> Call {
    let deviation = random.pick(&DEVIATIONS);
    right_at(random, degree, deviation)
}

/// Such a call at a given deviation.
pub fn right_at(random: &mut Random, degree: usize, deviation: u64) -> Call {
    let limit = limit(random, degree);
    let mut call = with_limit(random, degree, deviation, limit);
    if random.one_in(3) {
        meet_limit(random, &mut call);
    }
    if random.one_in(2) {
        lend_more(random, &mut call);
    }
    call
}

/// A right call that is lent just what this limit asks for.
pub fn with_limit(random: &mut Random, degree: usize, deviation: u64, limit: usize) -> Call {
    let ordinary = random.one_in(4);
    let cdt = if ordinary { cdt_of(deviation) } else { cdt(random) };
    let words =
        if ordinary { any_words(random, words_asked(limit)) } else { words(random, deviation, limit, &draw::thresholds(&cdt)) };
    Call {
        session: Session { degree, deviation, drawn: drawn(random) },
        limit,
        cdt,
        polynomial: POLYNOMIAL.to_vec(),
        words,
        y: (0..2 * degree).map(|_| random.word() as i32).collect(),
        list: (0..list_asked(limit)).map(|_| random.word() as u32).collect(),
    }
}

/// A call by the table of the known points, with these words and just as many attempts as they are for.
pub fn with_words(degree: usize, deviation: u64, words: Vec<u64>) -> Call {
    let limit = words.len() / 4;
    Call {
        session: Session { degree, deviation, drawn: 0 },
        limit,
        cdt: known_points_cdt(),
        polynomial: POLYNOMIAL.to_vec(),
        words,
        y: vec![-1; 2 * degree],
        list: vec![9; list_asked(limit)],
    }
}

/// The words of an attempt by the table of the known points.
pub fn known_words(x: u64, word_2: u64, word_3: u64) -> [u64; 4] {
    [x << 40, 0, word_2, word_3]
}

/// A call with every slice empty.
pub fn with_nothing_lent(session: Session, limit: usize) -> Call {
    Call { session, limit, cdt: vec![], polynomial: vec![], words: vec![], y: vec![], list: vec![] }
}

/// A call that may be right, or refused for one or more reasons, and these reasons.
pub fn any(random: &mut Random) -> (Call, Vec<u32>) {
    super::any(random, super::degree, right, &REFUSALS, spoil)
}

/// Limits at both ends, and around the attempts that a draw is likely to need.
fn limit(random: &mut Random, degree: usize) -> usize {
    match random.below(8) {
        0 => 2 * degree,
        1 => 2 * degree + degree.min(1),
        2 => 32 * degree - degree.min(1),
        3 => 32 * degree,
        4 => 2 * degree + random.below(30 * degree + 1),
        _ => 2 * degree + random.below(2 * degree + 1),
    }
}

/// Puts the limit at the attempt that fills y, or one below: the last attempt then decides.
fn meet_limit(random: &mut Random, call: &mut Call) {
    let drawn = draw::draw(call);
    if drawn.answer.attempts == 0 || !drawn.session.is_drawn() {
        return;
    }
    let limit = drawn.answer.attempts - usize::from(random.one_in(3));
    if limit >= 2 * call.session.degree {
        call.limit = limit;
        call.words.truncate(words_asked(limit));
        call.list.truncate(list_asked(limit));
    }
}

/// More words and a longer list than the limit asks for.
fn lend_more(random: &mut Random, call: &mut Call) {
    for _ in 0..random.below(9) {
        call.words.push(random.word());
    }
    for _ in 0..random.below(99) {
        call.list.push(random.word() as u32);
    }
}

/// The table of document 01's known points: the i-th threshold, from 1, is high i × 2^40, low 0.
fn known_points_cdt() -> Vec<u64> {
    (1..=10).map(|i| i << 40).chain([0; 10]).collect()
}

/// The table that a host lends at this deviation.
pub fn cdt_of(deviation: u64) -> Vec<u64> {
    Deviation::try_from(deviation).unwrap().cdt().to_vec()
}

/// A right CDT table: that of any deviation, or another.
pub fn cdt(random: &mut Random) -> Vec<u64> {
    let high = random.word() % BOUND;
    let mut thresholds = match random.below(8) {
        0..=2 => return cdt_of(random.pick(&DEVIATIONS)),
        3 => return known_points_cdt(),
        // Equal thresholds.
        4 => vec![(random.pick(&[0, high, BOUND - 1]), random.pick(&[0, high, BOUND - 1])); 10],
        // Equal high words and differing low words.
        5 => (0..10).map(|_| (high, random.word() % BOUND)).collect(),
        // Thresholds at 0 and at the greatest value, and some between.
        6 => (0..10).map(|_| random.pick(&[(0, 0), (high, high), (BOUND - 1, BOUND - 1)])).collect(),
        _ => (0..10).map(|_| (random.word() % BOUND, random.word() % BOUND)).collect(),
    };
    thresholds.sort_unstable();
    let (high, low): (Vec<u64>, Vec<u64>) = thresholds.into_iter().unzip();
    [high, low].concat()
}

fn any_words(random: &mut Random, count: usize) -> Vec<u64> {
    (0..count).map(|_| random.word()).collect()
}

/// The words of a draw by these thresholds.
pub fn words(random: &mut Random, deviation: u64, limit: usize, thresholds: &[u128; 10]) -> Vec<u64> {
    let same = random.pick(&[0, u64::MAX, 3 << 62, 256]);
    match random.below(10) {
        0 => vec![same; words_asked(limit)],
        1 => (0..limit).flat_map(|_| [0, 0, 256, random.word()]).collect(),
        2..=4 => any_words(random, words_asked(limit)),
        _ => {
            let accepting = random.below(5);
            (0..limit).flat_map(|_| edge_words(random, deviation, thresholds, accepting)).collect()
        }
    }
}

/// An attempt's words at the edges of its rules. The greater `accepting`, 0 to 4, the more attempts are accepted.
pub fn edge_words(random: &mut Random, deviation: u64, thresholds: &[u128; 10], accepting: usize) -> [u64; 4] {
    let d = edge_d(random, thresholds);
    let any = random.word();
    let sign_and_low = random.pick(&[0, 1, 255, 256, 257, 511, any % 512]);
    let over = random.pick(&[0, 0, 1, any >> 9, u64::MAX >> 9]);
    let high = top_bits(random, (d >> 62) as u64);
    let low = top_bits(random, (d % u128::from(BOUND)) as u64);
    let mut words = [high, low, sign_and_low + (over << 9), 0];
    let attempt = Attempt::of(deviation, words, thresholds);
    let (e, cut_e) = (attempt.e as u64, attempt.cut_e() as u64);
    let other_e = exponential_at(random.pick(&DEVIATIONS), attempt.n);
    let last = e.saturating_sub(1);
    words[3] = if random.below(5) < accepting {
        random.pick(&[0, last, cut_e.min(last), other_e.min(last), any % e.max(1)])
    } else {
        random.pick(&[last, e, e, e + 1, other_e.saturating_sub(1).max(e), BOUND - 1, any])
    };
    words[3] = top_bits(random, words[3]);
    words
}

/// A draw at, just below or just above a threshold, at an end, or anywhere.
fn edge_d(random: &mut Random, thresholds: &[u128; 10]) -> u128 {
    let greatest = (1 << 124) - 1;
    let threshold = random.pick(thresholds);
    match random.below(8) {
        0 => 0,
        1 => greatest,
        2 => (u128::from(random.word()) << 64 | u128::from(random.word())) & greatest,
        3 => threshold.saturating_sub(1),
        4 => (threshold + 1).min(greatest),
        // The threshold's high word, with any low word.
        5 => threshold >> 62 << 62 | u128::from(random.word() % BOUND),
        _ => threshold,
    }
}

/// Changes the call so that this refusal applies to it. False where the call has no room for it.
pub fn spoil(random: &mut Random, call: &mut Call, refusal: u32) -> bool {
    match refusal {
        1 => call.session.degree = random.pick(&FORGED_DEGREES),
        2 => spoil_lengths(random, call),
        3 => spoil_cdt(random, &mut call.cdt),
        4 => spoil_polynomial(random, &mut call.polynomial),
        5 => return spoil_limit(random, call),
        7 => return shorten(random, &mut call.words, words_asked(call.limit)),
        8 => return shorten(random, &mut call.list, list_asked(call.limit)),
        16 => call.session.deviation = random.pick(&FORGED_DEVIATIONS),
        _ => unreachable!("a draw has no refusal {refusal}"),
    }
    true
}

fn spoil_lengths(random: &mut Random, call: &mut Call) {
    let which = 1 + random.below(7);
    if which & 1 != 0 {
        call.cdt.resize(wrong_length(random, 20), BOUND - 1);
    }
    if which & 2 != 0 {
        call.polynomial.resize(wrong_length(random, 21), 0);
    }
    if which & 4 != 0 {
        let right = call.y.len().max(1);
        call.y.resize(wrong_length(random, right), -1);
    }
}

pub fn spoil_cdt(random: &mut Random, cdt: &mut [u64]) {
    let i = 1 + random.below(9);
    let (high, low) = cdt.split_at_mut(10);
    match random.below(4) {
        0 => cdt[random.below(20)] = random.pick(&[BOUND, BOUND + 1, 1 << 63, u64::MAX]),
        // The high word falls, and the low word rises.
        1 => {
            high[i - 1] = high[i - 1].max(1);
            high[i] = high[i - 1] - 1;
            low[i] = BOUND - 1;
        }
        // The high words are equal, and the low word falls.
        _ => {
            low[i - 1] = low[i - 1].max(1);
            high[i] = high[i - 1];
            low[i] = low[i - 1] - 1;
        }
    }
}

/// A limit outside its bounds. One that is just outside is lent all that it asks for.
fn spoil_limit(random: &mut Random, call: &mut Call) -> bool {
    let degree = call.session.degree;
    let least = (2 * degree).saturating_sub(1);
    call.limit = random.pick(&[0, least, 32 * degree + 1, 32 * degree + 1, 1 << 62, 1 << 63, usize::MAX]);
    if call.limit <= 32 * degree + 1 {
        call.words.resize(words_asked(call.limit), 0);
        call.list.resize(list_asked(call.limit), 0);
    }
    call.limit < 2 * degree || call.limit > 32 * degree
}
