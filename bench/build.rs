//! Links the proved code: target/staticlib/libentry.a of the repository.

use std::path::Path;

fn main() {
    let here = std::env::var("CARGO_MANIFEST_DIR").unwrap();
    let folder = Path::new(&here).join("../target/staticlib");
    println!("cargo:rustc-link-search=native={}", folder.display());
    println!("cargo:rustc-link-lib=static=entry");
    println!(
        "cargo:rerun-if-changed={}",
        folder.join("libentry.a").display()
    );
}
