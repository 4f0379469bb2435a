//! What the program was built from.

use std::sync::LazyLock;

pub const VERSION: &str = env!("CARGO_PKG_VERSION");

/// The commit of the repository, and the kit whose toolchain made the archive. Whoever builds the program says which they are.
const COMMIT: &str = known(option_env!("BLISS_BOX_COMMIT"));
const KIT: &str = known(option_env!("BLISS_BOX_KIT"));

const fn known(said: Option<&'static str>) -> &'static str {
    match said {
        Some(said) => said,
        None => "unknown",
    }
}

/// Version, commit and kit, each on a line of its own.
pub static ORIGIN: LazyLock<String> = LazyLock::new(|| format!("{VERSION}\ncommit {COMMIT}\nkit {KIT}"));
