//! A draw, with its attempts.

use std::array;

use super::{
    degree_is_served, deviation_is_served, entry, exponential_at, list_polynomial, of_62, written, Session, ONE, POLYNOMIAL,
};

/// The order of a CDT table's words: which ten thresholds they make.
pub type Order = fn(&[u64]) -> [u128; 10];

/// Document 02's order: ten high words, and then ten low words. Threshold i (from 0) is high × 2^62 + low.
pub fn thresholds(cdt: &[u64]) -> [u128; 10] {
    array::from_fn(|i| u128::from(cdt[i]) * ONE + u128::from(cdt[10 + i]))
}

/// An attempt by its four words.
#[derive(Clone, Copy, Debug, PartialEq, Eq)]
pub struct Attempt {
    /// The deviation of the session.
    pub deviation: u64,
    /// The draw, from words 0 and 1.
    pub d: u128,
    /// The base sample.
    pub x: u64,
    /// The low 8 bits of word 2.
    pub b: u64,
    /// Bit 8 of word 2.
    pub negative: bool,
    /// N = b(b + 512x).
    pub n: u64,
    /// e(N) at the deviation.
    pub e: u128,
    /// 62 of word 3.
    pub tested: u128,
}

impl Attempt {
    pub fn of(deviation: u64, words: [u64; 4], thresholds: &[u128; 10]) -> Attempt {
        let d = of_62(words[0]) * ONE + of_62(words[1]);
        let mut x = 0;
        for &threshold in thresholds {
            if threshold <= d {
                x += 1;
            }
        }
        let b = words[2] % 256;
        let negative = words[2] / 256 % 2 == 1;
        let n = b * (b + 512 * x);
        let e = u128::from(exponential_at(deviation, n));
        let tested = of_62(words[3]);
        Attempt { deviation, d, x, b, negative, n, e, tested }
    }

    pub fn size(&self) -> u64 {
        256 * self.x + self.b
    }

    /// The accept bit.
    pub fn accepted(&self) -> bool {
        self.tested < self.e && !(self.size() == 0 && self.negative)
    }

    pub fn sample(&self) -> i32 {
        if self.negative {
            -(self.size() as i32)
        } else {
            self.size() as i32
        }
    }
}

/// What a draw takes and is lent.
#[derive(Clone, Debug)]
pub struct Call {
    pub session: Session,
    pub limit: usize,
    pub cdt: Vec<u64>,
    pub polynomial: Vec<u64>,
    pub words: Vec<u64>,
    pub y: Vec<i32>,
    pub list: Vec<u32>,
}

#[derive(Clone, Copy, Debug, PartialEq, Eq)]
pub struct Answer {
    pub refusal: u32,
    pub attempts: usize,
    pub accepted: usize,
    pub entries: usize,
}

/// The answer, the next session, y and the list after the call, and the attempts that were made.
pub struct Drawn {
    pub answer: Answer,
    pub session: Session,
    pub y: Vec<i32>,
    pub list: Vec<u32>,
    pub attempts: Vec<Attempt>,
}

fn cdt_is_right(order: Order, cdt: &[u64]) -> bool {
    for &word in cdt {
        if u128::from(word) >= ONE {
            return false;
        }
    }
    let thresholds = order(cdt);
    for i in 1..10 {
        if thresholds[i] < thresholds[i - 1] {
            return false;
        }
    }
    true
}

/// The words that a draw asks for, or usize::MAX where they would be more.
pub fn words_asked(limit: usize) -> usize {
    limit.saturating_mul(4)
}

/// The list entries that a draw asks for, or usize::MAX where they would be more.
pub fn list_asked(limit: usize) -> usize {
    limit.saturating_mul(46).saturating_add(2)
}

/// The first refusal that applies to a draw, or 0.
fn refusal_of_draw(order: Order, call: &Call) -> u32 {
    let n = call.session.degree;
    let limit = call.limit;
    if !degree_is_served(n) {
        return 1;
    }
    if !deviation_is_served(call.session.deviation) {
        return 16;
    }
    if call.cdt.len() != 20 || call.polynomial.len() != 21 || call.y.len() != 2 * n {
        return 2;
    }
    if !cdt_is_right(order, &call.cdt) {
        return 3;
    }
    if call.polynomial != POLYNOMIAL {
        return 4;
    }
    if limit < 2 * n || limit > 32 * n {
        return 5;
    }
    if call.words.len() < words_asked(limit) {
        return 7;
    }
    if call.list.len() < list_asked(limit) {
        return 8;
    }
    0
}

fn refused(call: &Call, refusal: u32) -> Drawn {
    Drawn {
        answer: Answer { refusal, attempts: 0, accepted: 0, entries: 0 },
        session: call.session,
        y: call.y.clone(),
        list: call.list.clone(),
        attempts: Vec::new(),
    }
}

/// The entries of attempt t, made after `accepted` samples.
fn list_attempt(entries: &mut Vec<u32>, t: usize, accepted: usize) {
    for place in 4 * t..4 * t + 4 {
        entries.push(entry(2, place));
    }
    for place in 0..20 {
        entries.push(entry(3, place));
    }
    list_polynomial(entries);
    entries.push(entry(5, accepted));
}

pub fn draw(call: &Call) -> Drawn {
    draw_in(thresholds, call)
}

/// A draw by a table whose words stand in this order.
pub fn draw_in(order: Order, call: &Call) -> Drawn {
    let refusal = refusal_of_draw(order, call);
    if refusal != 0 {
        return refused(call, refusal);
    }
    let n = call.session.degree;
    let thresholds = order(&call.cdt);
    let mut entries = vec![entry(1, n)];
    let mut attempts = Vec::new();
    let mut samples = Vec::new();
    while samples.len() < 2 * n && attempts.len() < call.limit {
        let t = attempts.len();
        let words = [call.words[4 * t], call.words[4 * t + 1], call.words[4 * t + 2], call.words[4 * t + 3]];
        let attempt = Attempt::of(call.session.deviation, words, &thresholds);
        list_attempt(&mut entries, t, samples.len());
        if attempt.accepted() {
            samples.push(attempt.sample());
        }
        attempts.push(attempt);
    }
    entries.push(entry(6, samples.len()));

    let full = samples.len() == 2 * n;
    Drawn {
        answer: Answer { refusal: 0, attempts: attempts.len(), accepted: samples.len(), entries: entries.len() },
        session: Session { drawn: u64::from(full), ..call.session },
        y: if full { samples } else { vec![0; 2 * n] },
        list: written(&call.list, &entries),
        attempts,
    }
}
