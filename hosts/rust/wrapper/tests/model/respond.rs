//! A response, with the numbers that decide it. To an empty challenge it is blank: Sc is zero, and so z is y.

use super::{
    degree_is_served, deviation_is_served, entry, exponential, list_polynomial, of_62, written, Session, EXPONENTIAL_LIMIT,
    ONE, POLYNOMIAL, RESPONSE_DEVIATION,
};

/// The largest A of a response that is not rejected.
pub const PRODUCT_LIMIT: u128 = 46_225;

/// The largest Z of a response that is not rejected.
pub const RESPONSE_LIMIT: u128 = 165_688_384;

/// The greatest size of a value of z1 in a response that is not rejected: document 02's.
pub const COEFFICIENT_LIMIT: i128 = 2_100;

/// The words that a response asks for.
pub const WORDS_ASKED: usize = 3;

/// What a respond call takes and is lent.
#[derive(Clone, Debug)]
pub struct Call {
    pub session: Session,
    pub challenge: Vec<u32>,
    pub polynomial: Vec<u64>,
    pub words: Vec<u64>,
    pub key: Vec<i32>,
    pub y: Vec<i32>,
    pub z: Vec<i32>,
    pub list: Vec<u32>,
}

#[derive(Clone, Copy, Debug, PartialEq, Eq)]
pub struct Answer {
    pub refusal: u32,
    pub bit: bool,
    pub entries: usize,
}

/// The answer, the next session, y, z and the list after the call, and how a response came about where one was made.
pub struct Responded {
    pub answer: Answer,
    pub session: Session,
    pub y: Vec<i32>,
    pub z: Vec<i32>,
    pub list: Vec<u32>,
    pub response: Option<Response>,
}

/// The index of s that output i uses at position c, and whether it is taken with a minus sign.
fn term(n: usize, i: usize, c: usize) -> (usize, bool) {
    if i >= c {
        (i - c, false)
    } else {
        (i + n - c, true)
    }
}

/// One half of the challenge product: s times the challenge, modulo X^n + 1.
pub fn half_product(s: &[i32], challenge: &[u32]) -> Vec<i128> {
    let n = s.len();
    let mut product = Vec::new();
    for i in 0..n {
        let mut output = 0;
        for &c in challenge {
            let (index, minus) = term(n, i, c as usize);
            if minus {
                output -= i128::from(s[index]);
            } else {
                output += i128::from(s[index]);
            }
        }
        product.push(output);
    }
    product
}

/// Sc: the products of both halves of the key.
pub fn product(key: &[i32], challenge: &[u32]) -> Vec<i128> {
    let (s1, s2) = key.split_at(key.len() / 2);
    let mut product = half_product(s1, challenge);
    product.extend(half_product(s2, challenge));
    product
}

fn sum_of_squares(values: &[i128]) -> u128 {
    let mut sum = 0;
    for &value in values {
        sum += value.unsigned_abs() * value.unsigned_abs();
    }
    sum
}

fn inner_product(a: &[i128], b: &[i128]) -> i128 {
    let mut sum = 0;
    for i in 0..a.len() {
        sum += a[i] * b[i];
    }
    sum
}

/// A response by y, the product and its three words, before the bit decides over it.
#[derive(Clone, Debug)]
pub struct Response {
    /// g.
    pub minus: bool,
    /// y + Sc, or y - Sc.
    pub z: Vec<i128>,
    /// A, the sum of squares of Sc.
    pub product_squares: u128,
    /// Z, the sum of squares of z.
    pub response_squares: u128,
    /// I, the sum of products of z and Sc.
    pub inner: i128,
    /// 46,225 - A, or 0 if A is larger.
    pub n1: u64,
    /// The smaller of 2|I| and 5,534,960.
    pub n2: u64,
    /// e(N1).
    pub e1: u128,
    /// e = e(N2).
    pub e2: u128,
    /// The whole part of e × e / 2^62.
    pub f: u128,
    /// 62 of word 1.
    pub tested1: u128,
    /// 62 of word 2.
    pub tested2: u128,
}

impl Response {
    pub fn of(y: &[i32], product: &[i128], words: [u64; WORDS_ASKED]) -> Response {
        let minus = words[0] % 2 == 1;
        let mut z = Vec::new();
        for i in 0..y.len() {
            z.push(if minus { i128::from(y[i]) - product[i] } else { i128::from(y[i]) + product[i] });
        }
        let product_squares = sum_of_squares(product);
        let response_squares = sum_of_squares(&z);
        let inner = inner_product(&z, product);
        let n1 = PRODUCT_LIMIT.saturating_sub(product_squares) as u64;
        let n2 = (2 * inner.unsigned_abs()).min(u128::from(EXPONENTIAL_LIMIT)) as u64;
        let e1 = u128::from(exponential(n1));
        let e2 = u128::from(exponential(n2));
        // Document 02 leaves f its cut.
        let f = e2 * e2 / ONE;
        let (tested1, tested2) = (of_62(words[1]), of_62(words[2]));
        Response { minus, z, product_squares, response_squares, inner, n1, n2, e1, e2, f, tested1, tested2 }
    }

    /// z1: the first n values of z.
    fn z1(&self) -> &[i128] {
        &self.z[..self.z.len() / 2]
    }

    /// The five tests of the bit: document 01's four in its order, A, Z, word 1 and the cosh test, and document 02's of z1.
    pub fn tests(&self) -> [bool; 5] {
        [
            self.product_squares <= PRODUCT_LIMIT,
            self.response_squares <= RESPONSE_LIMIT,
            self.tested1 < self.e1,
            self.tested2 * (ONE + self.f) < self.e2 * (1 << 63),
            self.z1().iter().all(|value| (-COEFFICIENT_LIMIT..=COEFFICIENT_LIMIT).contains(value)),
        ]
    }

    pub fn bit(&self) -> bool {
        self.tests() == [true; 5]
    }
}

/// Whether a challenge is answered. By document 02's S-5 it may be empty.
fn challenge_is_right(challenge: &[u32], n: usize) -> bool {
    if challenge.len() > 64 || challenge.len() > n {
        return false;
    }
    for (place, &position) in challenge.iter().enumerate() {
        if position as usize >= n {
            return false;
        }
        if place > 0 && position <= challenge[place - 1] {
            return false;
        }
    }
    true
}

/// The list entries that a response to so many positions asks for, or usize::MAX where they would be more.
pub fn list_asked(degree: usize, positions: usize) -> usize {
    degree.saturating_mul(2 * positions).saturating_add(47)
}

/// The first refusal that applies to a respond call, or 0.
fn refusal_of_respond(call: &Call) -> u32 {
    let n = call.session.degree;
    if !degree_is_served(n) {
        return 1;
    }
    if !deviation_is_served(call.session.deviation) {
        return 16;
    }
    if call.session.deviation != RESPONSE_DEVIATION {
        return 17;
    }
    if call.polynomial.len() != 21 || call.y.len() != 2 * n || call.z.len() != 2 * n || call.key.len() != 2 * n {
        return 2;
    }
    if call.polynomial != POLYNOMIAL {
        return 4;
    }
    if !challenge_is_right(&call.challenge, n) {
        return 6;
    }
    if call.words.len() < WORDS_ASKED {
        return 7;
    }
    if call.list.len() < list_asked(n, call.challenge.len()) {
        return 8;
    }
    if !call.session.is_drawn() {
        return 9;
    }
    if call.key.iter().any(|value| !(-7..=7).contains(value)) {
        return 10;
    }
    if call.y.iter().any(|value| !(-2815..=2815).contains(value)) {
        return 11;
    }
    0
}

fn refused(call: &Call, refusal: u32) -> Responded {
    Responded {
        answer: Answer { refusal, bit: false, entries: 0 },
        session: call.session,
        y: call.y.clone(),
        z: call.z.clone(),
        list: call.list.clone(),
        response: None,
    }
}

fn entries_of(n: usize, challenge: &[u32], bit: bool) -> Vec<u32> {
    let mut entries = vec![entry(7, n)];
    for half in 0..2 {
        for i in 0..n {
            for &c in challenge {
                let (index, _) = term(n, i, c as usize);
                entries.push(entry(8, half * n + index));
            }
        }
    }
    for place in 0..WORDS_ASKED {
        entries.push(entry(2, place));
    }
    list_polynomial(&mut entries);
    list_polynomial(&mut entries);
    entries.push(entry(9, usize::from(bit)));
    entries
}

pub fn respond(call: &Call) -> Responded {
    let refusal = refusal_of_respond(call);
    if refusal != 0 {
        return refused(call, refusal);
    }
    let n = call.session.degree;
    let sc = product(&call.key, &call.challenge);
    let response = Response::of(&call.y, &sc, [call.words[0], call.words[1], call.words[2]]);
    let bit = response.bit();
    let entries = entries_of(n, &call.challenge, bit);
    Responded {
        answer: Answer { refusal: 0, bit, entries: entries.len() },
        session: Session { drawn: 0, ..call.session },
        y: vec![0; 2 * n],
        z: if bit { response.z.iter().map(|&value| value as i32).collect() } else { vec![0; 2 * n] },
        list: written(&call.list, &entries),
        response: Some(response),
    }
}
