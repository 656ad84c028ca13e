//! Copies the two source files to OUT_DIR and appends to each one line that
//! declares a child module of ours, which can reach private functions.
use std::{
    env, fs, io,
    path::{Path, PathBuf},
};

/// A source file and the file of its child module.
const FILES: [[&str; 2]; 2] = [
    ["input.rs", "src/access/mod.rs"],
    ["input/picture.rs", "src/access/picture.rs"],
];

fn main() {
    println!("cargo::rerun-if-env-changed=PLAYER_SRC");
    println!("cargo::rerun-if-changed=build.rs");
    let package = PathBuf::from(env::var_os("CARGO_MANIFEST_DIR").unwrap());
    let out = PathBuf::from(env::var_os("OUT_DIR").unwrap());
    let source = env::var_os("PLAYER_SRC").unwrap_or("../shared/docs/src/crates/player/src".into());
    // A relative folder counts from the repository's root.
    let source = package.join("../..").join(source);
    for [name, access] in FILES {
        let from = source.join(name);
        println!("cargo::rerun-if-changed={}", from.display());
        // An included file finds its modules beside it: picture.rs goes there.
        let to = out.join(from.file_name().unwrap());
        if let Err(error) = copy(&from, &to, &package.join(access)) {
            println!(
                "cargo::error=cannot take the Rust source {}: {error}. Set PLAYER_SRC to the \
                 folder that holds input.rs and input/picture.rs (now {}).",
                from.display(),
                source.display()
            );
        }
    }
}

fn copy(from: &Path, to: &Path, access: &Path) -> io::Result<()> {
    let text = fs::read_to_string(from)?;
    fs::write(
        to,
        format!("{text}\n#[path = {access:?}]\npub mod access;\n"),
    )
}
