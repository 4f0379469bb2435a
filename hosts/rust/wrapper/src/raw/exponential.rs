//! The exponential by N alone.

extern "C" {
    /// e(n) in units of 2^-62, or 2^63 + 12 where `n` is refused.
    ///
    /// # Safety
    ///
    /// It takes any number.
    pub fn bliss_exponential(n: u64) -> u64;
}
