//! Links the archive that `rt lib` writes in crates/bench: the proved machine's calls for Rust.

fn main() {
    let folder = concat!(env!("CARGO_MANIFEST_DIR"), "/../../../crates/bench/out");
    println!("cargo::rerun-if-changed={folder}/libbench.a");
    println!("cargo::rustc-link-search=native={folder}");
    println!("cargo::rustc-link-lib=static=bench");
}
