//! The CDT table of a deviation, worked out by its rule in whole numbers. Each weight is bracketed from below and above, and both
//! ends must round to the same thresholds, so that no rounding is left to chance.

mod natural;

use core::array;
use core::ops::Add;

use natural::Natural;

/// The CDT table of a deviation from 107 to 271: the high words of ten thresholds, and then their ten low words, all of 62 bits.
/// Threshold i is the nearest whole number to 2^124 times the chance that the base sample is below i, where j has the weight
/// exp(-65536 j² / (2 × deviation²)), j = 0 to 10. A threshold of 2^124 itself is one less: a table can't hold it.
///
/// Those of the box's deviations need not be worked out: [`Deviation::cdt`](crate::Deviation::cdt) has them.
///
/// ```
/// use bliss_box::{cdt, CDT};
///
/// assert_eq!(cdt(215), Some(CDT));
/// assert_eq!(cdt(272), None);
/// ```
#[must_use]
pub fn cdt(deviation: u32) -> Option<[u64; 20]> {
    if !(107..=271).contains(&deviation) {
        return None;
    }
    let weights = weights(u64::from(deviation));
    let mut table = [0; 20];
    for i in 0..10 {
        let (below, rest) = weights.split_at(i + 1);
        let threshold = threshold(total(below), total(rest)).min((1 << 124) - 1);
        table[i] = (threshold >> 62) as u64;
        table[10 + i] = (threshold % (1 << 62)) as u64;
    }
    Some(table)
}

/// A real number in units of 2^-192: it is at least the lower and at most the upper end.
#[derive(Clone, Copy)]
struct Bracket {
    lower: Natural,
    upper: Natural,
}

impl Bracket {
    const ZERO: Bracket = Bracket::exactly(Natural([0; 10]));
    const ONE: Bracket = Bracket::exactly(Natural([0, 0, 0, 0, 0, 0, 1, 0, 0, 0]));

    const fn exactly(number: Natural) -> Bracket {
        Bracket { lower: number, upper: number }
    }
}

impl Add for Bracket {
    type Output = Bracket;

    fn add(self, other: Bracket) -> Bracket {
        Bracket { lower: self.lower + other.lower, upper: self.upper + other.upper }
    }
}

/// The weights of j = 0 to 10, all of them times exp(65536 × 100 / (2 × deviation²)): so no exponent is below 0, and the factor
/// cancels in a chance.
fn weights(deviation: u64) -> [Bracket; 11] {
    array::from_fn(|j| exponential(32768 * (100 - (j * j) as u64), deviation * deviation))
}

/// exp(p / q), by the sum of (p / q)^k / k!. With the last k at least 2p / q, each term behind it is at most half of the one
/// before, so that all of these together are at most the last.
fn exponential(p: u64, q: u64) -> Bracket {
    const LAST: u64 = 640;
    assert!(2 * p <= LAST * q, "the terms of exp({p} / {q}) don't yet fall by half");
    let mut term = Bracket::ONE;
    let mut sum = Bracket::ONE;
    for k in 1..=LAST {
        term = Bracket { lower: term.lower * p / (q * k), upper: (term.upper * p).div_ceil(q * k) };
        sum = sum + term;
    }
    Bracket { lower: sum.lower, upper: sum.upper + term.upper }
}

fn total(weights: &[Bracket]) -> Bracket {
    weights.iter().copied().fold(Bracket::ZERO, Add::add)
}

/// The nearest whole number to 2^124 times below / (below + rest), which rises with `below` and falls with `rest`.
fn threshold(below: Bracket, rest: Bracket) -> u128 {
    let lower = nearest(below.lower, below.lower + rest.upper);
    let upper = nearest(below.upper, below.upper + rest.lower);
    assert_eq!(lower, upper, "the ends of a threshold don't round alike");
    lower
}

/// The nearest whole number to 2^124 times part / whole, by long division; a part is below its whole. The last bit is one more
/// than is wanted, and rounds.
fn nearest(part: Natural, whole: Natural) -> u128 {
    let mut quotient = 0;
    let mut rest = part;
    for _ in 0..125 {
        rest = rest + rest;
        quotient *= 2;
        if rest >= whole {
            rest = rest - whole;
            quotient += 1;
        }
    }
    quotient / 2 + quotient % 2
}

#[cfg(test)]
mod tests {
    use super::*;
    use crate::thresholds;

    #[test]
    fn other_deviations_have_no_table() {
        for deviation in [0, 1, 106, 272, 1 << 16, u32::MAX] {
            assert_eq!(cdt(deviation), None, "{deviation}");
        }
    }

    #[test]
    fn every_deviation_has_thresholds_that_never_fall() {
        for deviation in 107..=271 {
            let table = cdt(deviation).unwrap();
            assert!(table.iter().all(|&word| word < 1 << 62), "{deviation}: {table:?}");
            assert!(thresholds(&table).windows(2).all(|pair| pair[0] <= pair[1]), "{deviation}: {table:?}");
        }
    }

    #[test]
    fn a_threshold_that_no_table_can_hold_is_cut() {
        let most = (1 << 62) - 1;
        let table = cdt(107).unwrap();
        assert_eq!(table[4..10], [most; 6]);
        assert_eq!(table[14..], [4611686018425693971, most, most, most, most, most]);
    }

    /// The upper end is above e cut to units, so that ends that are both cut, or both rounded up, are noticed.
    #[test]
    fn an_exponential_is_between_its_ends() {
        let e_cut = Natural([0, 0, 0, 0, 0, 0, 2, 0xb7e151628aed2a6a, 0xbf7158809cf4f3c7, 0x62e7160f38b4da56]);
        let bracket = exponential(1, 1);
        assert!(bracket.lower <= e_cut && e_cut < bracket.upper);
    }

    #[test]
    #[should_panic = "the terms of exp(321 / 1) don't yet fall by half"]
    fn an_exponent_with_too_few_terms_is_noticed() {
        let _ = exponential(321, 1);
    }

    #[test]
    fn quotients_are_rounded_to_the_nearest() {
        let nearest = |part, whole| nearest(Natural::from(part), Natural::from(whole));
        assert_eq!(nearest(0, 1), 0);
        assert_eq!(nearest(1, 2), 1 << 123);
        assert_eq!(nearest(1, 3), (1 << 124) / 3);
        assert_eq!(nearest(2, 3), (1 << 125) / 3 + 1);
        assert_eq!(nearest(u64::MAX - 1, u64::MAX), (1 << 124) - (1 << 60));
    }

    #[test]
    #[should_panic = "the ends of a threshold don't round alike"]
    fn ends_that_round_differently_are_noticed() {
        let from_one_to_two = Bracket { upper: Bracket::ONE.upper * 2, ..Bracket::ONE };
        let _ = threshold(Bracket::ONE, from_one_to_two);
    }
}
