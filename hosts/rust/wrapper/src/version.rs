//! The version that crate and archive must have in common.

use crate::raw;

/// The version of the archive.
pub(crate) fn of_archive() -> u32 {
    // SAFETY: the call takes nothing, and has this form in every version.
    unsafe { raw::bliss_version() }
}

/// Panics where the archive is of another version than this crate.
pub(crate) fn demand(archive: u32) {
    let own = raw::VERSION;
    assert!(archive == own, "libbliss_box.a is of version {archive}, and this crate of {own}: build both from one version");
}

#[cfg(test)]
mod tests {
    use super::*;

    #[test]
    fn archive_and_crate_are_of_one_version() {
        let numbers = [env!("CARGO_PKG_VERSION_MAJOR"), env!("CARGO_PKG_VERSION_MINOR"), env!("CARGO_PKG_VERSION_PATCH")];
        let [major, minor, patch] = numbers.map(|number| number.parse::<u32>().unwrap());
        assert_eq!(raw::VERSION, 10_000 * major + 100 * minor + patch);
        assert_eq!(of_archive(), raw::VERSION);
    }

    #[test]
    #[should_panic = "libbliss_box.a is of version 100, and this crate of "]
    fn an_archive_of_another_version_is_not_used() {
        demand(100);
    }
}
