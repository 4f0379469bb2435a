//! The exponential.

use bliss_box::{Deviation, Refusal, POLYNOMIAL};

use super::product::Product;

/// The largest N at deviation 215.
pub const LIMIT: u64 = 5_534_960;

/// R of deviation 215.
pub const RECIPROCAL_215: u64 = reciprocal(Deviation::D215);

/// R of a deviation: the whole part of 2^84 / (64 × D), where D is twice its square.
pub const fn reciprocal(deviation: Deviation) -> u64 {
    let divisor = 64 * 2 * deviation.number().pow(2);
    ((1 << 84) / divisor as u128) as u64
}

/// e(n) by R, over a polynomial table.
///
/// It is not inlined: where the compiler knows a caller's bound of n, it takes v for a number of 128 bits and multiplies by both
/// of its words, which is slower.
#[inline(never)]
pub fn exponential<P: Product>(n: u64, reciprocal: u64, polynomial: &[u64; 21]) -> u64 {
    let v = P::over_2_22(n, reciprocal);
    let value = polynomial[..20].iter().rev().fold(polynomial[20], |a, entry| entry - P::over_2_62(a, v));
    (0..6).fold(value, |a, _| P::rounded_square_over_2_62(a))
}

/// The exponential by n alone: e(n), or 2^63 and the refusal's number.
pub fn exponential_or_refusal<P: Product>(n: u64) -> u64 {
    if n > LIMIT {
        return (1 << 63) + u64::from(Refusal::Exponential.number());
    }
    exponential::<P>(n, RECIPROCAL_215, &POLYNOMIAL)
}
