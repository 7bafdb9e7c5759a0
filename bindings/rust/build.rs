//! Links the proved library, and with the feature `parts` the second one.

use std::env;
use std::path::{Path, PathBuf};

fn main() {
    let built = || Path::new(env!("CARGO_MANIFEST_DIR")).join("../../target/staticlib");
    let folder = env::var_os("PEATCLOAK_LIB").map_or_else(built, PathBuf::from);
    println!("cargo:rerun-if-env-changed=PEATCLOAK_LIB");
    println!("cargo:rustc-link-search=native={}", folder.display());
    let parts = env::var_os("CARGO_FEATURE_PARTS").map(|_| "parts");
    for library in ["peatcloak"].into_iter().chain(parts) {
        println!("cargo:rerun-if-changed={}", folder.join(format!("lib{library}.a")).display());
        println!("cargo:rustc-link-lib=static={library}");
    }
}
