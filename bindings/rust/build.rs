//! Links the static library `libexports.a` from the folder that `SHIGTHAPUL_LIB_DIR` names.
use std::env;
use std::path::{Path, PathBuf};

/// Names the folder of the static library.
const FOLDER: &str = "SHIGTHAPUL_LIB_DIR";

/// Where `tools/build exports` writes, as seen from this crate.
const DEFAULT: &str = "../../target/staticlib";

fn main() {
    println!("cargo:rerun-if-changed=build.rs");
    println!("cargo:rerun-if-env-changed={}", FOLDER);
    let target = env::var("CARGO_CFG_TARGET_ARCH").expect("cargo names the target");
    assert_eq!(target, "x86_64", "libexports.a links only into x86-64 programs");
    let folder = folder();
    let archive = folder.join("libexports.a");
    let advice = "run `tools/build exports`, or name its folder by";
    assert!(archive.is_file(), "no {}: {} {}", archive.display(), advice, FOLDER);
    println!("cargo:rerun-if-changed={}", archive.display());
    println!("cargo:rustc-link-search=native={}", folder.display());
    println!("cargo:rustc-link-lib=static=exports");
}

/// The folder of the static library.
fn folder() -> PathBuf {
    let here = env::var_os("CARGO_MANIFEST_DIR").expect("cargo names the crate's folder");
    let given = env::var_os(FOLDER).filter(|given| !given.is_empty());
    Path::new(&here).join(given.unwrap_or_else(|| DEFAULT.into()))
}
