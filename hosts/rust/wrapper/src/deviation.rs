//! The deviations of noise.

use core::fmt;

use crate::{tables, Refusal};

/// The deviations that noise can be drawn with. There are no others:
///
/// ```
/// use bliss_box::{Deviation, Refusal};
///
/// assert_eq!(Deviation::try_from(250), Ok(Deviation::D250));
/// assert_eq!(Deviation::try_from(251), Err(Refusal::Deviation));
/// ```
#[derive(Clone, Copy, Debug, PartialEq, Eq, Hash)]
pub enum Deviation {
    /// 107, of BLISS-II.
    D107,
    /// 215, of BLISS-I: responses are made at this one alone.
    D215,
    /// 250, of BLISS-III.
    D250,
    /// 271, of BLISS-IV.
    D271,
}

impl Deviation {
    /// All of them, in ascending order.
    pub const ALL: [Deviation; 4] = [Deviation::D107, Deviation::D215, Deviation::D250, Deviation::D271];

    /// As a number.
    #[must_use]
    pub const fn number(self) -> u64 {
        match self {
            Deviation::D107 => 107,
            Deviation::D215 => 215,
            Deviation::D250 => 250,
            Deviation::D271 => 271,
        }
    }

    /// The CDT table to lend to draws with this deviation. A draw can't know for which deviation a table was made: with the table
    /// of another one its noise has neither deviation.
    #[must_use]
    pub const fn cdt(self) -> &'static [u64; 20] {
        match self {
            Deviation::D107 => &tables::CDT_107,
            Deviation::D215 => &tables::CDT,
            Deviation::D250 => &tables::CDT_250,
            Deviation::D271 => &tables::CDT_271,
        }
    }
}

impl TryFrom<u64> for Deviation {
    type Error = Refusal;

    /// The deviation of this number.
    ///
    /// # Errors
    ///
    /// Refuses any other number than the four.
    fn try_from(number: u64) -> Result<Deviation, Refusal> {
        Deviation::ALL.into_iter().find(|deviation| deviation.number() == number).ok_or(Refusal::Deviation)
    }
}

impl fmt::Display for Deviation {
    fn fmt(&self, f: &mut fmt::Formatter) -> fmt::Result {
        self.number().fmt(f)
    }
}
