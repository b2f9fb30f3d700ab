//! Says where the static library stands that `tests/staticlib` builds, for
//! src/linked.rs.

use std::path::Path;

fn main() {
    let root = Path::new(env!("CARGO_MANIFEST_DIR"))
        .parent()
        .expect("bench stands in the project");
    let folder = root.join("target").join("staticlib");
    println!("cargo:rerun-if-changed=build.rs");
    println!(
        "cargo:rerun-if-changed={}",
        folder.join("libcabinet.a").display()
    );
    println!("cargo:rustc-link-search=native={}", folder.display());
}
