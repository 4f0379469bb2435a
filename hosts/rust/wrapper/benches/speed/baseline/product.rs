//! The products of document 01, and the rounded squares of request S-7, in two forms.

/// Whole parts of products over powers of two.
pub trait Product {
    /// The whole part of a * v / 2^62, for v below 2^62.
    fn over_2_62(a: u64, v: u64) -> u64;

    /// The whole part of a * a / 2^62, for a at most 2^62.
    fn square_over_2_62(a: u64) -> u64;

    /// The whole part of (a * a + 2^61) / 2^62, for a at most 2^62.
    fn rounded_square_over_2_62(a: u64) -> u64;

    /// The whole part of n * r / 2^22, where that is below 2^62.
    fn over_2_22(n: u64, r: u64) -> u64;
}

/// The product has 128 bits and is shifted.
pub struct Shifted;

/// The factors are scaled, so that the high word of the product is the whole part and nothing is left to shift; the low word's top bit is
/// the half that rounds a square. The n of a draw is below 2^22, and a larger one adds r for each 2^22 in it.
pub struct HighWord;

fn wide(a: u64, b: u64) -> u128 {
    u128::from(a) * u128::from(b)
}

fn high_word(a: u64, b: u64) -> u64 {
    (wide(a, b) >> 64) as u64
}

impl Product for Shifted {
    fn over_2_62(a: u64, v: u64) -> u64 {
        (wide(a, v) >> 62) as u64
    }

    fn square_over_2_62(a: u64) -> u64 {
        (wide(a, a) >> 62) as u64
    }

    fn rounded_square_over_2_62(a: u64) -> u64 {
        ((wide(a, a) + (1 << 61)) >> 62) as u64
    }

    fn over_2_22(n: u64, r: u64) -> u64 {
        (wide(n, r) >> 22) as u64
    }
}

impl Product for HighWord {
    fn over_2_62(a: u64, v: u64) -> u64 {
        high_word(a, 4 * v)
    }

    fn square_over_2_62(a: u64) -> u64 {
        high_word(2 * a, 2 * a)
    }

    fn rounded_square_over_2_62(a: u64) -> u64 {
        let product = wide(2 * a, 2 * a);
        (product >> 64) as u64 + (product as u64 >> 63)
    }

    fn over_2_22(n: u64, r: u64) -> u64 {
        (n >> 22) * r + high_word(n << 42, r)
    }
}
