//! Respond calls.

use super::{either_sign, positions, shorten, spoil_polynomial, spoil_positions, spoil_values, top_bits, within, wrong_length};
use super::{BOUND, FORGED_DEGREES, FORGED_DEVIATIONS, NOT_DRAWN};
use crate::model::respond::{
    list_asked, product, Call, Response, COEFFICIENT_LIMIT, PRODUCT_LIMIT, RESPONSE_LIMIT, WORDS_ASKED,
};
use crate::model::{Session, POLYNOMIAL, RESPONSE_DEVIATION};
use crate::random::Random;

/// The refusals of a respond call, in an order in which they can be brought about: the list's length after the challenge, the
/// content of a buffer before its length, and a deviation that is not served after one that is.
const REFUSALS: [u32; 11] = [6, 7, 8, 9, 10, 11, 4, 2, 17, 16, 1];

/// The deviations that have no response.
pub const OTHER_DEVIATIONS: [u64; 3] = [107, 250, 271];

/// The greatest value of a key.
pub const GREATEST_KEY: i32 = 7;

/// The greatest value of y.
pub const GREATEST_Y: i32 = 2815;

/// The greatest value of z1 in a response that is not rejected.
pub const GREATEST_Z1: i32 = COEFFICIENT_LIMIT as i32;

/// A call with everything right, apart from a degree that may be a refused one.
pub fn right(random: &mut Random, degree: usize) -> Call {
    let challenge = challenge(random, degree);
    let key = key(random, degree, &challenge);
    with_key(random, challenge, key)
}

/// A right call to a given challenge, with a given key.
pub fn with_key(random: &mut Random, challenge: Vec<u32>, key: Vec<i32>) -> Call {
    let minus = random.one_in(2);
    let y = y(random, &product(&key, &challenge), minus);
    assembled(random, key.len() / 2, challenge, key, y, minus)
}

/// A right call to a given challenge, over a given y.
pub fn over(random: &mut Random, degree: usize, challenge: &[u32], y: &[i32]) -> Call {
    let key = key(random, degree, challenge);
    let minus = random.one_in(2);
    assembled(random, degree, challenge.to_vec(), key, y.to_vec(), minus)
}

/// A call with every slice empty.
pub fn with_nothing_lent(session: Session) -> Call {
    let (challenge, polynomial, words, list) = (vec![], vec![], vec![], vec![]);
    Call { session, challenge, polynomial, words, key: vec![], y: vec![], z: vec![], list }
}

/// A call that may be right, or refused for one or more reasons, and these reasons.
pub fn any(random: &mut Random) -> (Call, Vec<u32>) {
    super::any(random, super::degree, right, &REFUSALS, spoil)
}

fn assembled(random: &mut Random, degree: usize, challenge: Vec<u32>, key: Vec<i32>, y: Vec<i32>, minus: bool) -> Call {
    let mut words = words(random, &y, &product(&key, &challenge), minus).to_vec();
    let mut list_length = list_asked(degree, challenge.len());
    if random.one_in(2) {
        words.extend((0..random.below(9)).map(|_| random.word()));
        list_length += random.below(99);
    }
    Call {
        session: Session { degree, deviation: RESPONSE_DEVIATION, drawn: 1 },
        challenge,
        polynomial: POLYNOMIAL.to_vec(),
        words,
        key,
        y,
        z: (0..2 * degree).map(|_| random.word() as i32).collect(),
        list: (0..list_length).map(|_| random.word() as u32).collect(),
    }
}

/// A right challenge: once in eight an empty one, for a blank response.
pub fn challenge(random: &mut Random, degree: usize) -> Vec<u32> {
    let length = if random.one_in(8) { 0 } else { positions(random, degree) };
    challenge_of(random, degree, length)
}

/// A right challenge of so many positions.
pub fn challenge_of(random: &mut Random, degree: usize, length: usize) -> Vec<u32> {
    let mut rest: Vec<u32> = (0..degree as u32).collect();
    let ends = random.below(3);
    let mut challenge: Vec<u32> = (0..length.min(degree))
        .map(|turn| match (ends, turn) {
            // The first and the last position of all.
            (0, 0) => rest.remove(0),
            (1, 0) => rest.remove(rest.len() - 1),
            _ => rest.remove(random.below(rest.len())),
        })
        .collect();
    challenge.sort_unstable();
    challenge
}

fn key(random: &mut Random, degree: usize, challenge: &[u32]) -> Vec<i32> {
    let length = 2 * degree;
    let limit = PRODUCT_LIMIT as usize;
    match random.below(10) {
        0 => vec![0; length],
        1 => vec![either_sign(random, GREATEST_KEY); length],
        2 => (0..length).map(|_| either_sign(random, GREATEST_KEY)).collect(),
        3 => (0..length).map(|_| within(random, GREATEST_KEY)).collect(),
        4..=6 => {
            let wanted = 1 + random.below(limit);
            key_near(random, length, challenge.len(), wanted)
        }
        _ => {
            let mut key = key_near(random, length, challenge.len(), limit);
            // An even number of positions makes an even A.
            let target = random.pick(&[if challenge.len() % 2 == 1 { 46_225 } else { 46_224 }, 46_226]);
            tune(random, &mut key, challenge, target);
            key
        }
    }
}

/// A key for n = 512 whose sum of squares is 943 × 49 + 18 = 46,225. Its last value is 0.
pub fn key_of_46_225() -> Vec<i32> {
    let mut key = vec![GREATEST_KEY; 943];
    key.extend([3, -3]);
    key.resize(1024, 0);
    key
}

/// A key whose A is likely to be near a wanted one: values up to a bound, with as many zeros as that asks for.
pub fn key_near(random: &mut Random, length: usize, positions: usize, wanted: usize) -> Vec<i32> {
    let bound = 1 + random.below(GREATEST_KEY as usize);
    // Values up to the bound have bound (bound + 1) / 3 as their mean square, and each counts once for each position.
    let all = (length * positions * bound * (bound + 1) / 3).max(1);
    (0..length).map(|_| if random.below(all) < wanted { within(random, bound as i32) } else { 0 }).collect()
}

/// Changes values of a key, never away from the target, until A is the target or many changes were tried.
fn tune(random: &mut Random, key: &mut [i32], challenge: &[u32], target: i128) {
    let n = key.len() / 2;
    let greatest = i128::from(GREATEST_KEY) * challenge.len() as i128;
    if (key.len() as i128) * greatest * greatest < target {
        return;
    }
    let mut product = product(key, challenge);
    let mut away = product.iter().map(|value| value * value).sum::<i128>() - target;
    for _ in 0..4000 {
        if away == 0 {
            return;
        }
        let place = random.below(key.len());
        let value = within(random, GREATEST_KEY);
        let change = i128::from(value - key[place]);
        let (half, index) = (place / n * n, place % n);
        // Where the value goes to, and by which sign.
        let goals = challenge.iter().map(|&c| {
            let i = index + c as usize;
            if i < n {
                (half + i, change)
            } else {
                (half + i - n, -change)
            }
        });
        let step: i128 = goals.clone().map(|(i, change)| change * (2 * product[i] + change)).sum();
        if (away + step).abs() <= away.abs() {
            away += step;
            key[place] = value;
            goals.for_each(|(i, change)| product[i] += change);
        }
    }
}

/// I at 0 and near it; the first I whose cut e is 0, where e is 1; and the greatest I whose e is not 0, and the next. Those with
/// an e of 1 stand twice: few keys allow them.
const INNER_EDGES: [i64; 7] = [0, 1, 1_986_526, 1_986_526, 2_018_565, 2_018_565, 2_018_566];

/// Z at its limit and above, and those that are at most the limit in 32 bits.
const RESPONSE_EDGES: [u128; 4] = [RESPONSE_LIMIT, RESPONSE_LIMIT + 1, 1 << 32, (1 << 32) + RESPONSE_LIMIT];

/// A right y: noise, great values, a multiple of the product for a large I, or a y whose I, Z or z1 is at an edge.
fn y(random: &mut Random, product: &[i128], minus: bool) -> Vec<i32> {
    // What is added to y.
    let shifts: Vec<i32> = product.iter().map(|&value| if minus { -value as i32 } else { value as i32 }).collect();
    match random.below(15) {
        0 => vec![0; shifts.len()],
        1 | 2 => noise(random, shifts.len()),
        3..=5 => great_y(random, &shifts),
        6..=8 => {
            let target = random.pick(&INNER_EDGES) * random.pick(&[1, -1]);
            y_of_inner(&shifts, target)
        }
        9..=11 => {
            let target = random.pick(&RESPONSE_EDGES);
            y_of_squares(random, &shifts, target as i64)
        }
        _ => y_of_coefficients(random, &shifts),
    }
}

/// Values of the deviation of a draw's noise.
fn noise(random: &mut Random, length: usize) -> Vec<i32> {
    (0..length).map(|_| within(random, 372)).collect()
}

/// Values up to the greatest, all at the greatest, or a multiple of what is added to y. In most of them z1 is brought to pass.
fn great_y(random: &mut Random, shifts: &[i32]) -> Vec<i32> {
    let (kind, times) = (random.below(4), within(random, 62));
    let value = |&shift: &i32| match kind {
        0 => within(random, GREATEST_Y),
        1 => either_sign(random, GREATEST_Y),
        _ => (shift * times).clamp(-GREATEST_Y, GREATEST_Y),
    };
    let y: Vec<i32> = shifts.iter().map(value).collect();
    if random.one_in(4) {
        return y;
    }
    let ends = passing_ends(shifts);
    y.iter().zip(ends).map(|(y, (least, most))| *y.clamp(&least, &most)).collect()
}

/// The least and the greatest value of y at each place by which z1 passes, where this is added to y.
fn passing_ends(shifts: &[i32]) -> Vec<(i32, i32)> {
    let n = shifts.len() / 2;
    let z1 = shifts[..n].iter().map(|shift| (-GREATEST_Z1 - shift, GREATEST_Z1 - shift));
    let z2 = shifts[n..].iter().map(|_| (-GREATEST_Y, GREATEST_Y));
    z1.chain(z2).collect()
}

/// A y whose I is the target or its negative, where the product allows it: a multiple of what is added to y, and what is left goes
/// to the places of its greatest values first.
fn y_of_inner(shifts: &[i32], target: i64) -> Vec<i32> {
    let ends = passing_ends(shifts);
    let shifts: Vec<i64> = shifts.iter().map(|&shift| shift.into()).collect();
    let passing = |place: usize, value: i64| value.clamp(ends[place].0.into(), ends[place].1.into());
    // The sum of products with z is that with y, and A more.
    let squares: i64 = shifts.iter().map(|shift| shift * shift).sum();
    let wanted = target - squares;
    let times = wanted / squares.max(1);
    let mut y: Vec<i64> = (0..shifts.len()).map(|place| passing(place, shifts[place] * times)).collect();
    let mut left = wanted - y.iter().zip(&shifts).map(|(y, shift)| y * shift).sum::<i64>();
    let mut places: Vec<usize> = (0..y.len()).filter(|&place| shifts[place] != 0).collect();
    places.sort_by_key(|&place| -shifts[place].abs());
    for place in places {
        let value = passing(place, y[place] + left / shifts[place]);
        left -= (value - y[place]) * shifts[place];
        y[place] = value;
    }
    y.into_iter().map(|value| value as i32).collect()
}

/// A y whose Z is the target, where the degree has one with a z1 that passes. Each value of z takes about an equal part of what is
/// left, and the last ones as much as they can.
fn y_of_squares(random: &mut Random, shifts: &[i32], target: i64) -> Vec<i32> {
    let mut left = target;
    let mut y = Vec::new();
    for (place, (shift, (least, most))) in shifts.iter().zip(passing_ends(shifts)).enumerate() {
        let places = (shifts.len() - place) as i64;
        let part = if places > 12 { left * (6 + random.below(5) as i64) / (8 * places) } else { left };
        let size = ((part as f64).sqrt() as i32).min(most + shift).min(-least - shift);
        left -= i64::from(size) * i64::from(size);
        y.push(either_sign(random, size) - shift);
    }
    y
}

/// Noise, and some values of z1 and z2, those at their ends above all, at the limit of z1, just above it and far above.
fn y_of_coefficients(random: &mut Random, shifts: &[i32]) -> Vec<i32> {
    let mut y = noise(random, shifts.len());
    let n = shifts.len() / 2;
    if n > 0 {
        for _ in 0..=random.below(3) {
            let any = random.below(2 * n);
            let place = random.pick(&[0, n - 1, n, 2 * n - 1, any]);
            let far = GREATEST_Y - shifts[place].abs();
            let size = random.pick(&[GREATEST_Z1, GREATEST_Z1, GREATEST_Z1 + 1, GREATEST_Z1 + 1, far]);
            y[place] = either_sign(random, size) - shifts[place];
        }
    }
    y
}

/// The three words, at the edges of what decides the response.
fn words(random: &mut Random, y: &[i32], product: &[i128], minus: bool) -> [u64; WORDS_ASKED] {
    let any = random.word();
    let first = random.pick(&[0, 0, any << 1, u64::MAX - 1]) + u64::from(minus);
    let response = Response::of(y, product, [first, 0, 0]);
    let cut = response.cut();
    let word_1 = edge_word(random, response.e1 as u64, cut.e1 as u64);
    let word_2 = edge_word(random, cosh_edge(&response), cosh_edge(&cut));
    [first, word_1, word_2]
}

/// The first number that does not pass the cosh test: 2^62 where all do.
fn cosh_edge(response: &Response) -> u64 {
    (response.e2 << 63).div_ceil(u128::from(BOUND) + response.f) as u64
}

/// A word that is likely to be below an edge, near it or far, or at the edge that the cut e(N) gave.
fn edge_word(random: &mut Random, edge: u64, cut_edge: u64) -> u64 {
    let any = random.word();
    let last = edge.saturating_sub(1);
    let word = if random.one_in(4) {
        random.pick(&[edge, edge, edge + 1, BOUND - 1, any])
    } else {
        random.pick(&[0, last, cut_edge.min(last), any % edge.max(1)])
    };
    top_bits(random, word.min(BOUND - 1))
}

/// Changes the call so that this refusal applies to it. False where the call has no room for it.
pub fn spoil(random: &mut Random, call: &mut Call, refusal: u32) -> bool {
    match refusal {
        1 => call.session.degree = random.pick(&FORGED_DEGREES),
        2 => spoil_lengths(random, call),
        4 => spoil_polynomial(random, &mut call.polynomial),
        6 => return spoil_challenge(random, call),
        7 => return shorten(random, &mut call.words, WORDS_ASKED),
        8 => return shorten(random, &mut call.list, list_asked(call.session.degree, call.challenge.len())),
        9 => call.session.drawn = random.pick(&NOT_DRAWN),
        10 => return spoil_values(random, &mut call.key, GREATEST_KEY),
        11 => return spoil_values(random, &mut call.y, GREATEST_Y),
        16 => call.session.deviation = random.pick(&FORGED_DEVIATIONS),
        17 => call.session.deviation = random.pick(&OTHER_DEVIATIONS),
        _ => unreachable!("a respond call has no refusal {refusal}"),
    }
    true
}

fn spoil_lengths(random: &mut Random, call: &mut Call) {
    let which = 1 + random.below(15);
    if which & 1 != 0 {
        call.polynomial.resize(wrong_length(random, 21), 0);
    }
    for (bit, values) in [(2, &mut call.key), (4, &mut call.y), (8, &mut call.z)] {
        if which & bit != 0 {
            let right = values.len().max(1);
            values.resize(wrong_length(random, right), 1);
        }
    }
}

/// A challenge that is refused, and a list that is long enough for it. One that is empty stays, and so does a blank response.
fn spoil_challenge(random: &mut Random, call: &mut Call) -> bool {
    if call.challenge.is_empty() {
        return false;
    }
    spoil_positions(random, call.session.degree, &mut call.challenge);
    let least = list_asked(call.session.degree, call.challenge.len());
    call.list.resize(least.max(call.list.len()), 0);
    true
}
