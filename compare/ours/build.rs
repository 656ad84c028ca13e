//! Links the static library that probe/build makes.
use std::{env, path::PathBuf};

fn main() {
    println!("cargo::rerun-if-env-changed=PROBE_LIB_DIR");
    println!("cargo::rerun-if-env-changed=PROBE_LIB_NAME");
    let package = PathBuf::from(env::var_os("CARGO_MANIFEST_DIR").unwrap());
    let folder = env::var_os("PROBE_LIB_DIR").unwrap_or("../target/probe/target/staticlib".into());
    let name = env::var("PROBE_LIB_NAME").unwrap_or("probe".into());
    // A relative folder counts from compare/.
    let folder = package.join("..").join(folder);
    let library = folder.join(format!("lib{name}.a"));
    println!("cargo::rerun-if-changed={}", library.display());
    if !library.exists() {
        println!(
            "cargo::error=no library {}. Build it with `probe/build`, or set \
             PROBE_LIB_DIR to its folder and PROBE_LIB_NAME to its name.",
            library.display()
        );
    }
    println!("cargo::rustc-link-search=native={}", folder.display());
    println!("cargo::rustc-link-lib=static={name}");
}
