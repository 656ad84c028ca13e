//! Prints the film sheet of the order on standard input.
use std::{
    io::{self, Read, Write},
    process::ExitCode,
};

/// No byte past these changes a sheet: `first-bytes-film` in
/// crates/film_sheet/proofs/FirstBytes.antt.
const MOST: u64 = 70_000;

fn print() -> io::Result<()> {
    let mut order = Vec::new();
    io::stdin().take(MOST).read_to_end(&mut order)?;
    io::stdout().write_all(thumb_layout::film(&order).as_bytes())
}

fn main() -> ExitCode {
    match print() {
        Ok(()) => ExitCode::SUCCESS,
        Err(error) => {
            eprintln!("film: {error}");
            ExitCode::from(2)
        }
    }
}
