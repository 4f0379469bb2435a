//! Natural numbers of 640 bits, with the few operations that working a table out takes.

use core::ops::{Add, Div, Mul, Sub};

const LIMBS: usize = 10;

/// The limbs, the highest first, so that the order of arrays is that of the numbers. A result that does not fit is a panic.
#[derive(Clone, Copy, Debug, PartialEq, Eq, PartialOrd, Ord)]
pub struct Natural(pub [u64; LIMBS]);

impl From<u64> for Natural {
    fn from(number: u64) -> Natural {
        let mut limbs = [0; LIMBS];
        limbs[LIMBS - 1] = number;
        Natural(limbs)
    }
}

impl Add for Natural {
    type Output = Natural;

    fn add(self, other: Natural) -> Natural {
        let mut carry = 0;
        let mut limbs = [0; LIMBS];
        for i in (0..LIMBS).rev() {
            let sum = u128::from(self.0[i]) + u128::from(other.0[i]) + carry;
            limbs[i] = sum as u64;
            carry = sum >> 64;
        }
        assert_eq!(carry, 0, "a sum has more than {LIMBS} limbs");
        Natural(limbs)
    }
}

impl Sub for Natural {
    type Output = Natural;

    fn sub(self, other: Natural) -> Natural {
        let mut borrow = false;
        let mut limbs = [0; LIMBS];
        for i in (0..LIMBS).rev() {
            let difference = i128::from(self.0[i]) - i128::from(other.0[i]) - i128::from(borrow);
            limbs[i] = difference as u64;
            borrow = difference < 0;
        }
        assert!(!borrow, "a difference is below 0");
        Natural(limbs)
    }
}

impl Mul<u64> for Natural {
    type Output = Natural;

    fn mul(self, factor: u64) -> Natural {
        let mut carry = 0;
        let mut limbs = [0; LIMBS];
        for i in (0..LIMBS).rev() {
            let product = u128::from(self.0[i]) * u128::from(factor) + carry;
            limbs[i] = product as u64;
            carry = product >> 64;
        }
        assert_eq!(carry, 0, "a product has more than {LIMBS} limbs");
        Natural(limbs)
    }
}

/// The whole part of the quotient.
impl Div<u64> for Natural {
    type Output = Natural;

    fn div(self, divisor: u64) -> Natural {
        let mut rest = 0;
        let limbs = self.0.map(|limb| {
            let dividend = (rest << 64) + u128::from(limb);
            rest = dividend % u128::from(divisor);
            (dividend / u128::from(divisor)) as u64
        });
        Natural(limbs)
    }
}

impl Natural {
    /// The quotient, or the next natural number where it is none.
    pub fn div_ceil(self, divisor: u64) -> Natural {
        (self + Natural::from(divisor - 1)) / divisor
    }
}

#[cfg(test)]
mod tests {
    use super::*;

    const ZERO: Natural = Natural([0; LIMBS]);
    const MOST: Natural = Natural([u64::MAX; LIMBS]);
    /// 2^576, the highest limb's unit.
    const HIGH: Natural = Natural([1, 0, 0, 0, 0, 0, 0, 0, 0, 0]);
    const BELOW_HIGH: Natural = Natural([0, !0, !0, !0, !0, !0, !0, !0, !0, !0]);

    fn one() -> Natural {
        Natural::from(1)
    }

    #[test]
    fn the_order_is_by_the_highest_limb_first() {
        assert!(ZERO < one() && one() < BELOW_HIGH && BELOW_HIGH < HIGH && HIGH < HIGH + one() && HIGH + one() < MOST);
    }

    #[test]
    fn carries_and_borrows_go_through_all_limbs() {
        assert_eq!(BELOW_HIGH + one(), HIGH);
        assert_eq!(HIGH - one(), BELOW_HIGH);
        assert_eq!(MOST - MOST, ZERO);
        assert_eq!(MOST + ZERO, MOST);
        assert_eq!((MOST - one()) + one(), MOST);
    }

    #[test]
    fn a_product_carries_and_a_quotient_is_its_inverse() {
        assert_eq!(BELOW_HIGH * u64::MAX, Natural([u64::MAX - 1, !0, !0, !0, !0, !0, !0, !0, !0, 1]));
        for factor in [1, 2, 3, 6_553_600, u64::MAX] {
            assert_eq!(BELOW_HIGH * factor / factor, BELOW_HIGH, "{factor}");
            assert_eq!((BELOW_HIGH * factor).div_ceil(factor), BELOW_HIGH, "{factor}");
        }
    }

    #[test]
    fn a_quotient_is_cut_or_rounded_up() {
        for (number, divisor) in [(one(), 2), (HIGH, 3), (HIGH + one(), 6_553_600), (MOST - Natural::from(1 << 23), 3_276_800)]
        {
            let cut = number / divisor;
            assert_eq!(number.div_ceil(divisor), cut + one(), "{number:?} over {divisor}");
            assert!(cut * divisor < number && number - cut * divisor < Natural::from(divisor), "{number:?} over {divisor}");
        }
        assert_eq!(ZERO / u64::MAX, ZERO);
        assert_eq!(ZERO.div_ceil(u64::MAX), ZERO);
    }

    #[test]
    #[should_panic = "a sum has more than 10 limbs"]
    fn a_sum_that_does_not_fit_is_noticed() {
        let _ = MOST + one();
    }

    #[test]
    #[should_panic = "a difference is below 0"]
    fn a_difference_below_zero_is_noticed() {
        let _ = BELOW_HIGH - HIGH;
    }

    #[test]
    #[should_panic = "a product has more than 10 limbs"]
    fn a_product_that_does_not_fit_is_noticed() {
        let _ = Natural([1 << 63, 0, 0, 0, 0, 0, 0, 0, 0, 0]) * 2;
    }
}
