//! Links the proved library, which `rt lib` writes in `crates/skopelyne`.
use std::path::Path;

fn main() {
    let here = std::env::var("CARGO_MANIFEST_DIR").expect("cargo tells where the package is");
    let folder = Path::new(&here).join("../crates/skopelyne/out");
    let library = folder.join("libskopelyne.a");
    println!("cargo:rerun-if-changed={}", library.display());
    if !library.exists() {
        eprintln!("The library crates/skopelyne/out/libskopelyne.a is missing: run `rt lib` in crates/skopelyne.");
        std::process::exit(1);
    }
    println!("cargo:rustc-link-search=native={}", folder.display());
    println!("cargo:rustc-link-lib=static=skopelyne");
}
