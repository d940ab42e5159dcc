//! Links the proved library, and links again when it changes. A package that depends on this one has
//! it linked as well.

use std::path::Path;

fn main() {
    let folder = Path::new(env!("CARGO_MANIFEST_DIR")).join("../crates/bordavina/out");
    let library = folder.join("libbordavina.a");
    if !library.exists() {
        println!(
            "cargo:warning=crates/bordavina/out/libbordavina.a is missing: rt lib --cpu x86-64 in crates/bordavina writes it"
        );
    }
    println!("cargo:rustc-link-search=native={}", folder.display());
    println!("cargo:rustc-link-lib=static=bordavina");
    println!("cargo:rerun-if-changed={}", library.display());
}
