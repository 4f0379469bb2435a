//! Why a call was refused.

use core::error;
use core::fmt;

/// Makes [`Refusal`] of lines that each say all there is of a refusal: its number in document 01 or 02, the name, and the reason.
macro_rules! refusals {
    ($($number:literal $name:ident: $reason:literal,)*) => {
        /// A refusal of documents 01 and 02. A refused call changes nothing that it was lent.
        #[derive(Clone, Copy, Debug, PartialEq, Eq, Hash)]
        #[non_exhaustive]
        pub enum Refusal {
            $(#[doc = $reason] $name,)*
            /// A number that this crate has no name for.
            Unknown(u32),
        }

        impl Refusal {
            /// The number of this refusal in these documents.
            #[must_use]
            pub const fn number(self) -> u32 {
                match self {
                    $(Refusal::$name => $number,)*
                    Refusal::Unknown(number) => number,
                }
            }

            const fn reason(self) -> &'static str {
                match self {
                    $(Refusal::$name => $reason,)*
                    Refusal::Unknown(_) => "it has no name here",
                }
            }
        }

        /// Whether a call was served, by the number in its answer, where 0 is no refusal.
        pub(crate) const fn served(number: u32) -> Result<(), Refusal> {
            match number {
                0 => Ok(()),
                $($number => Err(Refusal::$name),)*
                _ => Err(Refusal::Unknown(number)),
            }
        }
    };
}

refusals! {
    1 Degree: "the degree is not a power of two from 4 to 1024",
    2 Lengths: "the CDT is not 20 words, the polynomial table not 21, y, z or the key not 2n, or z1 or z2 of a record not n",
    3 Cdt: "a word of the CDT, whose ten high words come first, is 2^62 or more, or a threshold is below the one before",
    4 Polynomial: "an entry of the polynomial table is not the whole part of 2^62 / j!",
    5 Limit: "the limit is outside 2n to 32n attempts",
    6 Challenge: "the challenge is empty, longer than 64 or than n, has a position of n or more, or does not ascend strictly",
    7 Words: "there are fewer words than 4 for each attempt of a draw, or than 3 for a response",
    8 List: "the list is shorter than 46 entries for each attempt of a draw and 2 more, \
             or than 2n for each position of a challenge and 47 more",
    9 NotDrawn: "nothing is drawn to respond with",
    10 Key: "a value of the key is outside -7 to 7",
    11 Y: "a value of y is outside -2815 to 2815",
    12 Exponential: "N is above 5534960",
    13 KeySum: "the final sum of the key check is above 46225",
    14 Output: "the output is too short for the record, or for one of its fields",
    15 Record: "a value to be recorded is outside -3263 to 3263, or the bytes are no record",
    16 Deviation: "the deviation is not 107, 215, 250 or 271",
    17 ResponseDeviation: "a response is made at deviation 215 alone",
}

impl fmt::Display for Refusal {
    fn fmt(&self, f: &mut fmt::Formatter) -> fmt::Result {
        write!(f, "refusal {}: {}", self.number(), self.reason())
    }
}

impl error::Error for Refusal {}

#[cfg(test)]
mod tests {
    use super::*;
    use alloc::format;
    use alloc::string::ToString;

    #[test]
    fn every_number_of_an_answer_is_a_refusal_but_0() {
        assert_eq!(served(0), Ok(()));
        for number in (1..100).chain([u32::MAX]) {
            let refusal = served(number).unwrap_err();
            assert_eq!(refusal.number(), number);
            assert_eq!(refusal == Refusal::Unknown(number), number > 17, "{number}");
            assert!(refusal.to_string().starts_with(&format!("refusal {number}: ")));
        }
    }
}
