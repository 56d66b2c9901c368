//! Links the proved library, which `scripts/build.sh` writes.

use std::path::Path;

fn main() {
    let here = std::env::var("CARGO_MANIFEST_DIR").expect("the folder of this package");
    let folder = Path::new(&here).join("../target/staticlib");
    let library = folder.join("libkinds_export.a");
    assert!(library.exists(), "{} is missing: run scripts/build.sh", library.display());
    println!("cargo:rerun-if-changed={}", library.display());
    println!("cargo:rustc-link-search=native={}", folder.display());
    println!("cargo:rustc-link-lib=static=kinds_export");
}
