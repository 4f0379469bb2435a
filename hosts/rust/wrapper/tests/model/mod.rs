//! Document 01's opening, draw, respond, filled part and exponential, and document 02's key check, test of z1, records, blank
//! response, order of the CDT, rounded squarings and deviations, written from these documents alone, in whole numbers wide enough
//! for each sum and in plain loops. What the box must answer, and leave behind, for every input.

pub mod draw;
pub mod key_check;
pub mod record;
pub mod respond;

/// ONE is 2^62 units.
const ONE: u128 = 1 << 62;

/// The largest N of the exponential by N alone.
const EXPONENTIAL_LIMIT: u64 = 5_534_960;

/// The deviation of responses, and of the exponential by N alone.
pub const RESPONSE_DEVIATION: u64 = 215;

/// Entry j is the whole part of 2^62 / j!.
pub const POLYNOMIAL: [u64; 21] = polynomial();

const fn polynomial() -> [u64; 21] {
    let mut table = [0; 21];
    let mut factorial = 1;
    let mut j = 0;
    while j < 21 {
        if j > 0 {
            factorial *= j as u128;
        }
        table[j] = (ONE / factorial) as u64;
        j += 1;
    }
    table
}

/// 62 of a word.
fn of_62(word: u64) -> u128 {
    u128::from(word) % ONE
}

/// The exponential by N alone: e(N), or 2^63 + 12 where N is above the limit.
pub fn exponential(n: u64) -> u64 {
    if n > EXPONENTIAL_LIMIT {
        return (1 << 63) + 12;
    }
    exponential_at(RESPONSE_DEVIATION, n)
}

/// e(N) at a deviation.
pub fn exponential_at(deviation: u64, n: u64) -> u64 {
    let mut a = evaluated(deviation, n);
    // By document 02's S-7 each squaring adds 2^61 before the whole part is taken.
    for _ in 0..6 {
        a = (a * a + (1 << 61)) / ONE;
    }
    a as u64
}

/// The value of the polynomial at N, from which the squarings start. By document 02's S-8 D is twice the square of the deviation.
pub fn evaluated(deviation: u64, n: u64) -> u128 {
    let d = 2 * u128::from(deviation).pow(2);
    let r = (1 << 84) / (64 * d);
    let v = u128::from(n) * r / (1 << 22);
    let mut a = u128::from(POLYNOMIAL[20]);
    for j in (0..20).rev() {
        a = u128::from(POLYNOMIAL[j]) - a * v / ONE;
    }
    a
}

/// Any numbers: a host may forge a session.
#[derive(Clone, Copy, Debug, PartialEq, Eq)]
pub struct Session {
    pub degree: usize,
    pub deviation: u64,
    pub drawn: u64,
}

impl Session {
    /// Whether y is drawn: 1 says so, and no other number.
    pub fn is_drawn(&self) -> bool {
        self.drawn == 1
    }
}

fn degree_is_served(n: usize) -> bool {
    [4, 8, 16, 32, 64, 128, 256, 512, 1024].contains(&n)
}

fn deviation_is_served(deviation: u64) -> bool {
    [107, 215, 250, 271].contains(&deviation)
}

/// The first refusal that applies to an opening, or 0.
fn refusal_of_opening(n: usize, deviation: u64) -> u32 {
    if !degree_is_served(n) {
        return 1;
    }
    if !deviation_is_served(deviation) {
        return 16;
    }
    0
}

/// The refusal, and the session handed back.
pub fn open(n: usize, deviation: u64) -> (u32, Session) {
    let refusal = refusal_of_opening(n, deviation);
    if refusal != 0 {
        return (refusal, Session { degree: 0, deviation: 0, drawn: 0 });
    }
    (0, Session { degree: n, deviation, drawn: 0 })
}

/// kind × 2^24 + place.
fn entry(kind: usize, place: usize) -> u32 {
    (kind * (1 << 24) + place) as u32
}

/// The list with entries written from its start.
fn written(list: &[u32], entries: &[u32]) -> Vec<u32> {
    let mut list = list.to_vec();
    for (place, entry) in entries.iter().enumerate() {
        list[place] = *entry;
    }
    list
}

/// Kind 4: the polynomial table from its last entry to its first.
fn list_polynomial(entries: &mut Vec<u32>) {
    for place in (0..21).rev() {
        entries.push(entry(4, place));
    }
}

/// The filled part of a list.
pub fn filled(list: &[u32], count: usize) -> &[u32] {
    if count > list.len() {
        &list[..0]
    } else {
        &list[..count]
    }
}
