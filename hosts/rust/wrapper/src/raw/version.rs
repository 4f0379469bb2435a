//! The version of the archive.

/// `BLISS_BOX_VERSION`: 10,000 × major + 100 × minor + patch.
pub const VERSION: u32 = 1000;

extern "C" {
    /// The archive's version, to be compared with [`VERSION`] before any other call. It has this form in every version.
    ///
    /// # Safety
    ///
    /// It takes nothing.
    pub fn bliss_version() -> u32;
}
