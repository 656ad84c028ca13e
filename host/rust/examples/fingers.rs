//! Plays a run of fingers on the layout of the order on standard input:
//! fingers RUN <ORDER. host/examples/fingers.c says what a run is, and what is
//! printed of it.
use std::{
    env, fs,
    io::{self, Read, Write},
    process::ExitCode,
};
use thumb_layout::{Masks, Refusal, Tracker};

/// No byte past these changes what an order says: `first-bytes` in
/// crates/film_sheet/proofs/FirstBytes.antt.
const MOST: u64 = 70_000;

/// The answer to the call of a line, if it is one.
fn call(tracker: &mut Tracker, order: &[u8], line: &str) -> Option<Result<Masks, Refusal>> {
    let words: Vec<&str> = line.split_whitespace().collect();
    let number = |word: &str| word.parse::<f32>().ok();
    Some(match words[..] {
        ["press", finger, x, y] => {
            tracker.press(order, finger.parse().ok()?, number(x)?, number(y)?)
        }
        ["move", finger, x, y] => {
            tracker.move_to(order, finger.parse().ok()?, number(x)?, number(y)?)
        }
        ["lift", finger] => tracker.lift(order, finger.parse().ok()?),
        _ => return None,
    })
}

fn play(run: &str) -> io::Result<()> {
    let mut order = Vec::new();
    io::stdin().take(MOST).read_to_end(&mut order)?;
    let mut out = io::stdout().lock();
    let mut tracker = Tracker::default();
    for line in fs::read_to_string(run)?.lines() {
        if line.starts_with('#') {
            writeln!(out, "{line}")?;
            continue;
        }
        let line = line.split('=').next().unwrap_or_default().trim_end();
        match call(&mut tracker, &order, line) {
            Some(Ok(Masks { mask, combined })) => {
                writeln!(out, "{line} = {mask:04X} {combined:04X}")?
            }
            Some(Err(refusal)) => writeln!(out, "{line} = refusal {}", refusal.number())?,
            None => return Err(io::Error::other(format!("no call: {line}"))),
        }
    }
    Ok(())
}

fn main() -> ExitCode {
    let arguments: Vec<String> = env::args().collect();
    let [_, run] = &arguments[..] else {
        eprintln!("usage: fingers RUN <ORDER");
        return ExitCode::from(2);
    };
    match play(run) {
        Ok(()) => ExitCode::SUCCESS,
        Err(error) => {
            eprintln!("fingers: {error}");
            ExitCode::from(2)
        }
    }
}
