//! Takes the original's text as the oracle does, and links the readers that stand in archives.
#[path = "../oracle/build.rs"]
mod original;

use std::env;

fn main() {
    original::main();
    link("plain", "PLAIN_DIR");
    if env::var_os("CARGO_FEATURE_OURS").is_some() {
        link("exports", "EXPORTS_DIR");
    }
}

/// Links `libNAME.a` from the folder that a variable names.
fn link(name: &str, variable: &str) {
    let folder = env::var(variable).unwrap_or_else(|_| panic!("{} names a folder", variable));
    println!("cargo:rerun-if-env-changed={}", variable);
    println!("cargo:rerun-if-changed={}/lib{}.a", folder, name);
    println!("cargo:rustc-link-search=native={}", folder);
    println!("cargo:rustc-link-lib=static={}", name);
}
