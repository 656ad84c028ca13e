//! Answers requests on standard input, one a line, on standard output.
#![forbid(unsafe_code)]
mod requests;

use std::io::{self, BufRead, Write};

const HELP: &str = "\
oracle: answers single calls of the unchanged Rust.
Standard input: one request a line, a function's name and its arguments.
Standard output: one answer a line; `error: ...` if there is none.

Words
  f32         its bits as 8 hexadecimal digits (1.0 is 3F800000)
  byte        2 hexadecimal digits
  bool        0 or 1; other numbers are decimal
  N*kind      N values one after the other
  list(kind)  the count, then the items
  option(kind)  0, or 1 and the value
  refusable(kind)  0 and the value, or the refusal's number
  rect        x y w h, four f32
  control     rect, then the label's index in
              TRI O X SQ L1 L2 R2 R1 SELECT START L3 R3
  layout      game dpad list(control) pause playback speed mute list(rect: sticks)
  fit         1 Maximum, 2 KeepClear
  preset      psp analog allow_overlap option(fit) game_scale 2*game_offset list(rect: saved)
  viewport    2*f32 (controls) picture reusable_top covered_top

Requests";

fn main() -> io::Result<()> {
    let mut out = io::stdout().lock();
    match std::env::args().nth(1).as_deref() {
        None => {}
        Some("--help") => {
            writeln!(out, "{HELP}")?;
            for request in requests::REQUESTS {
                writeln!(out, "  {} {}", request.name, (request.usage)())?;
            }
            return Ok(());
        }
        Some(_) => {
            eprintln!("usage: oracle [--help] < requests");
            std::process::exit(2);
        }
    }
    std::panic::set_hook(Box::new(|_| ())); // A panic is an answer here.
    for line in io::stdin().lock().lines() {
        match requests::answer(&line?) {
            Ok(answer) => writeln!(out, "{answer}")?,
            Err(error) => writeln!(out, "error: {error}")?,
        }
        out.flush()?;
    }
    Ok(())
}
