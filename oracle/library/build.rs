//! Links the proved port, where scripts/library leaves it.

fn main() {
    let root = std::env::current_dir().expect("the folder of the crate");
    println!("cargo:rustc-link-search=native={}", root.join("../../target/library").display());
    println!("cargo:rerun-if-changed=../../target/library");
}
