//! Links the static libraries of the crates `speed` and `agent`, anew whenever one has changed.

fn main() {
    let folder = concat!(env!("CARGO_MANIFEST_DIR"), "/../target/bench/lib");
    println!("cargo:rustc-link-search=native={folder}");
    for library in ["speed", "agent"] {
        println!("cargo:rerun-if-changed={folder}/lib{library}.a");
    }
}
