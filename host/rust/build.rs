//! Links libthumb_layout.a, from the folder that THUMB_LIB_DIR names, or from
//! target/staticlib of the repository.
use std::{env, path::PathBuf};

fn main() {
    println!("cargo::rerun-if-env-changed=THUMB_LIB_DIR");
    let package = PathBuf::from(env::var_os("CARGO_MANIFEST_DIR").unwrap());
    let folder = env::var_os("THUMB_LIB_DIR").unwrap_or("../../target/staticlib".into());
    // A relative folder counts from this package.
    let folder = package.join(folder);
    let library = folder.join("libthumb_layout.a");
    println!("cargo::rerun-if-changed={}", library.display());
    if !library.exists() {
        println!(
            "cargo::error=no library {}. Build it with `tools/prove staticlib thumb_layout` at the \
             repository's root, or set THUMB_LIB_DIR to its folder.",
            library.display()
        );
    }
    println!("cargo::rustc-link-search=native={}", folder.display());
    println!("cargo::rustc-link-lib=static=thumb_layout");
}
