//! Where the proved library is: scripts/library leaves it in target/library. PIVOTSPARK_LIBRARY names another folder, for a trial.

use std::env;
use std::path::PathBuf;

fn main() {
    let here = PathBuf::from(env::var("CARGO_MANIFEST_DIR").expect("cargo sets it"));
    let folder = env::var_os("PIVOTSPARK_LIBRARY").map_or(here.join("../target/library"), PathBuf::from);
    println!("cargo:rustc-link-search=native={}", folder.display());
    println!("cargo:rerun-if-changed={}", folder.join("libpivotspark.a").display());
    println!("cargo:rerun-if-env-changed=PIVOTSPARK_LIBRARY");
    println!("cargo:rerun-if-changed=build.rs");
}
