//! The exponential by N alone.

use crate::{raw, Refusal};

/// e(n) at deviation 215, near exp(-n / 92450), in units of 2^-62.
///
/// # Errors
///
/// Refuses an `n` above 5,534,960.
pub fn exponential(n: u64) -> Result<u64, Refusal> {
    // SAFETY: the call takes any number and no pointer.
    match unsafe { raw::bliss_exponential(n) } {
        REFUSED => Err(Refusal::Exponential),
        e => Ok(e),
    }
}

/// What the call gives for a refused n: no value of e, which is at most 2^62.
const REFUSED: u64 = (1 << 63) + Refusal::Exponential.number() as u64;
