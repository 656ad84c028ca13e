//! Prints the layout of an order: layout FILE.
//! A line for the game and each element: its name, then x, y, w, h. A refused
//! order gives one line.
use std::{
    env,
    ffi::OsString,
    fs::File,
    io::{self, Read, Write},
    process::ExitCode,
};
use thumb_layout::Layout;

/// No byte past these changes what an order says: `first-bytes` in
/// crates/film_sheet/proofs/FirstBytes.antt.
const MOST: u64 = 70_000;

fn read(path: &OsString) -> io::Result<Vec<u8>> {
    let mut order = Vec::new();
    File::open(path)?.take(MOST).read_to_end(&mut order)?;
    Ok(order)
}

fn print(order: &[u8]) -> io::Result<()> {
    let mut out = io::stdout().lock();
    match Layout::of_order(order) {
        Ok(layout) => layout.lines().iter().try_for_each(|(name, r)| {
            let (x, y, w, h) = (r.x, r.y, r.w, r.h);
            writeln!(out, "{name:6} {x:10.3} {y:10.3} {w:10.3} {h:10.3}")
        }),
        Err(refusal) => writeln!(out, "REFUSED {}: {}", refusal.number(), refusal.word()),
    }
}

fn main() -> ExitCode {
    let arguments: Vec<OsString> = env::args_os().collect();
    let [_, path] = &arguments[..] else {
        eprintln!("usage: layout FILE");
        return ExitCode::from(2);
    };
    let (what, result) = match read(path) {
        Ok(order) => ("standard output".into(), print(&order)),
        Err(error) => (path.display().to_string(), Err(error)),
    };
    match result {
        Ok(()) => ExitCode::SUCCESS,
        Err(error) => {
            eprintln!("{what}: {error}");
            ExitCode::from(2)
        }
    }
}
