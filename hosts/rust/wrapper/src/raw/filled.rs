//! The filled part of a list.

extern "C" {
    /// The length of the filled part, which starts where the list starts; 0 where the count is over the list's length.
    ///
    /// # Safety
    ///
    /// It takes any count. `list` must be aligned, not null and valid for its length in entries.
    pub fn bliss_filled(list: *const u32, list_length: usize, count: usize) -> usize;
}
