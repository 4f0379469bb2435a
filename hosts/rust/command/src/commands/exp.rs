//! `bliss-box exp`: prints the exponential.

use bliss_box::exponential;
use clap::Args;

use crate::arguments::whole_number;
use crate::ending::{Failure, Status};
use crate::output;

/// Prints e(N), the exponential by which noise and responses are accepted.
///
/// e(N) is exp(-N / 92450), nearly, worked out in whole numbers: that of BLISS-I's deviation, 215. It is printed in units
/// of 2^-62, and as a decimal fraction that is cut, and not rounded, after 20 digits.
#[derive(Args)]
pub struct Exp {
    /// Whole numbers from 0 to 5534960
    #[arg(value_name = "N", required = true)]
    #[arg(value_parser = whole_number::<u64>(), allow_negative_numbers = true)]
    numbers: Vec<u64>,
}

/// The digits that are printed after the point: a unit is about 2 × 10^-19.
const DIGITS: usize = 20;

impl Exp {
    pub fn run(&self) -> Result<Status, Failure> {
        let mut text = String::new();
        for n in &self.numbers {
            let e = exponential(*n).map_err(|refusal| Failure::at(format!("N = {n}"), refusal))?;
            text += &format!("e({n}) = {e} units of 2^-62 = {}\n", fraction(e));
        }
        output::print(text)?;
        Ok(Status::Served)
    }
}

/// `units` of 2^-62 as a decimal fraction, cut after its last digit. Whole numbers alone: each digit is the whole part of ten times
/// what is left.
fn fraction(units: u64) -> String {
    const ONE: u128 = 1 << 62;
    let mut left = u128::from(units);
    let mut text = format!("{}.", left / ONE);
    for _ in 0..DIGITS {
        left = left % ONE * 10;
        text += &(left / ONE).to_string();
    }
    text
}

#[cfg(test)]
mod tests {
    use super::*;

    #[test]
    fn fractions_are_cut() {
        assert_eq!(fraction(1 << 62), "1.00000000000000000000");
        assert_eq!(fraction(1 << 61), "0.50000000000000000000");
        assert_eq!(fraction(0), "0.00000000000000000000");
        // 2^-62 is 2.16840434497100886801.. × 10^-19.
        assert_eq!(fraction(1), "0.00000000000000000021");
        assert_eq!(fraction((1 << 62) - 1), "0.99999999999999999978");
    }
}
