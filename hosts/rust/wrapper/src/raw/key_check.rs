//! The key check.

/// `bliss_key_check`. The sum of a refused key is 0.
#[repr(C)]
#[derive(Clone, Copy, Debug, PartialEq, Eq)]
pub struct KeyCheck {
    /// 0 is a key that passes.
    pub refusal: u32,
    /// The final sum.
    pub sum: u32,
}

layout!(KeyCheck of 8 bytes: refusal at 0, sum at 4);

extern "C" {
    /// Checks whether a key can always sign at one challenge length.
    ///
    /// # Safety
    ///
    /// It takes any degree and any challenge length. `key` must be aligned, not null and valid for its length in values.
    pub fn bliss_check_key(n: usize, key: *const i32, key_length: usize, challenge_length: usize) -> KeyCheck;
}
