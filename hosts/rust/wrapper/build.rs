//! Links `libbliss_box.a`: from the folder that `BLISS_BOX_LIB_DIR` names, else from the repository's `target/staticlib`, where
//! `scripts/archive` writes it. A relative folder counts from this package's own.

use std::env;
use std::path::Path;
use std::process;

fn main() {
    println!("cargo:rerun-if-env-changed=BLISS_BOX_LIB_DIR");
    let package = env::var("CARGO_MANIFEST_DIR").expect("cargo names the package's folder");
    let folder = env::var("BLISS_BOX_LIB_DIR").unwrap_or_else(|_| "../../../target/staticlib".into());
    let folder = Path::new(&package).join(folder);
    let archive = folder.join("libbliss_box.a");
    println!("cargo:rerun-if-changed={}", archive.display());
    if !archive.is_file() {
        eprintln!("{} is missing: run `scripts/archive`, or name its folder in BLISS_BOX_LIB_DIR", archive.display());
        process::exit(1);
    }
    println!("cargo:rustc-link-search=native={}", folder.display());
    println!("cargo:rustc-link-lib=static=bliss_box");
}
