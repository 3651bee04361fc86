//! Links the proved library that `./bench library` puts below the repository's target/.

use std::path::Path;

fn main() {
    let root = Path::new(env!("CARGO_MANIFEST_DIR")).join("../..");
    let folder = root.join("target/staticlib");
    println!("cargo:rustc-link-search=native={}", folder.display());
    println!("cargo:rustc-link-lib=static=edge");
    println!(
        "cargo:rerun-if-changed={}",
        folder.join("libedge.a").display()
    );
}
