//! The response.

use bliss_box::{Kind, Outcome, Refusal, Session, COEFFICIENT_LIMIT};

use super::exponential::{exponential, LIMIT, RECIPROCAL_215};
use super::product::Product;
use super::read_list::{entry, list_places, list_polynomial};
use super::refusals::{all_within, check_respond};
use super::words::low_62;

/// The most that A may be.
const SQUARES_LIMIT: u64 = 46_225;

/// The most that Z may be.
const NORM_LIMIT: u64 = 165_688_384;

/// The sums A, Z and I, and whether the values of z1 are within their limit.
struct Measures {
    squares: u64,
    norm: u64,
    inner: i64,
    within: bool,
}

/// Makes z the response to a challenge or all zero, and y all zero.
#[allow(clippy::too_many_arguments)]
#[inline(never)]
pub fn respond<P: Product>(
    session: &Session,
    challenge: &[u32],
    polynomial: &[u64; 21],
    words: &[u64],
    key: &[i32],
    y: &mut [i32],
    z: &mut [i32],
    list: &mut [u32],
) -> Result<Outcome, Refusal> {
    check_respond(session, challenge, polynomial, words, key, y, z, list)?;
    let n = session.degree();
    let reads = 2 * n * challenge.len();
    list[0] = entry(Kind::Response, n);
    let (products, rest) = list[1..].split_at_mut(reads);
    let squares = multiply(n, challenge, key, z, products);
    let (norm, inner) = add(words[0] & 1 == 1, y, z);
    let within = all_within(&z[..n], COEFFICIENT_LIMIT);
    let bit = accepts::<P>(&Measures { squares, norm, inner, within }, polynomial, words);
    list_places(&mut rest[..3], Kind::Word, 0..);
    list_polynomial(&mut rest[3..24]);
    list_polynomial(&mut rest[24..45]);
    rest[45] = entry(Kind::Bit, usize::from(bit));
    if !bit {
        z.fill(0);
    }
    y.fill(0);
    Ok(Outcome { bit, entries: reads + 47 })
}

/// Makes z the challenge product. Gives A. A degree is a power of two, so a mask takes an index modulo n.
fn multiply(n: usize, challenge: &[u32], key: &[i32], z: &mut [i32], list: &mut [u32]) -> u64 {
    let mut squares = 0;
    let halves = key.chunks_exact(n).zip(z.chunks_exact_mut(n)).zip(list.chunks_exact_mut(n * challenge.len()));
    for (half, ((s, z), list)) in halves.enumerate() {
        for ((i, output), listed) in z.iter_mut().enumerate().zip(list.chunks_exact_mut(challenge.len())) {
            let mut sum = 0;
            for (position, listed) in challenge.iter().zip(listed) {
                let c = *position as usize;
                let index = i.wrapping_sub(c) & (n - 1);
                *listed = entry(Kind::Key, half * n + index);
                sum += if c <= i { s[index] } else { -s[index] };
            }
            *output = sum;
            squares += (sum * sum) as u64;
        }
    }
    squares
}

/// Makes z the response, where it holds the challenge product. Gives Z and I.
fn add(minus: bool, y: &[i32], z: &mut [i32]) -> (u64, i64) {
    let sign = if minus { -1 } else { 1 };
    let mut norm = 0;
    let mut inner = 0;
    for (z, y) in z.iter_mut().zip(y) {
        let product = *z;
        *z = y + sign * product;
        norm += (*z * *z) as u64;
        inner += i64::from(*z * product);
    }
    (norm, inner)
}

fn accepts<P: Product>(measures: &Measures, polynomial: &[u64; 21], words: &[u64]) -> bool {
    let e1 = exponential::<P>(SQUARES_LIMIT.saturating_sub(measures.squares), RECIPROCAL_215, polynomial);
    let e2 = exponential::<P>((2 * measures.inner.unsigned_abs()).min(LIMIT), RECIPROCAL_215, polynomial);
    measures.squares <= SQUARES_LIMIT
        && measures.norm <= NORM_LIMIT
        && measures.within
        && low_62(words[1]) < e1
        && passes_cosh::<P>(e2, low_62(words[2]))
}

fn passes_cosh<P: Product>(e: u64, u: u64) -> bool {
    let f = P::square_over_2_62(e);
    u128::from(u) * u128::from((1 << 62) + f) < u128::from(e) << 63
}
