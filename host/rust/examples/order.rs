//! Writes the order of settings to standard output; with no argument it says
//! how they are given. A refused order has no bytes, and the status 1.
use std::{
    env,
    io::{self, Write},
    process::ExitCode,
};
use thumb_layout::{Fit, Rect, Settings};

const USAGE: &str = "usage: order W H [psp] [analog] [overlap] [fit=unset|maximum|keep_clear]
    [picture=X,Y,W,H] [game=SCALE,X,Y] [cutout=X,Y,W,H].. [saved=X,Y,W,H]..";

fn numbers<const N: usize>(text: &str) -> Option<[f32; N]> {
    let numbers: Result<Vec<f32>, _> = text.split(',').map(str::parse).collect();
    numbers.ok()?.try_into().ok()
}

fn rect(text: &str) -> Option<Rect> {
    let [x, y, w, h] = numbers(text)?;
    Some(Rect { x, y, w, h })
}

/// The settings that the arguments give; none if they are not understood.
fn settings(arguments: &[String]) -> Option<Settings> {
    let [w, h, rest @ ..] = arguments else {
        return None;
    };
    let mut settings = Settings::new(w.parse().ok()?, h.parse().ok()?);
    for argument in rest {
        match argument.split_once('=') {
            None if argument == "psp" => settings.psp = true,
            None if argument == "analog" => settings.analog = true,
            None if argument == "overlap" => settings.allow_overlap = true,
            Some(("fit", "unset")) => settings.fit = Fit::Unset,
            Some(("fit", "maximum")) => settings.fit = Fit::Maximum,
            Some(("fit", "keep_clear")) => settings.fit = Fit::KeepClear,
            Some(("picture", text)) => settings.picture = Some(rect(text)?),
            Some(("game", text)) => {
                let [scale, across, down] = numbers(text)?;
                settings.game_scale = scale;
                settings.game_offset = [across, down];
            }
            Some(("cutout", text)) => settings.cutouts.push(rect(text)?),
            Some(("saved", text)) => settings.saved.push(rect(text)?),
            _ => return None,
        }
    }
    Some(settings)
}

fn write(order: &[u8]) -> io::Result<()> {
    let mut out = io::stdout().lock();
    out.write_all(order)?;
    // What is left to the program's end fails unseen.
    out.flush()
}

fn main() -> ExitCode {
    let arguments: Vec<String> = env::args().skip(1).collect();
    let Some(settings) = settings(&arguments) else {
        eprintln!("{USAGE}");
        return ExitCode::from(2);
    };
    match settings.to_order() {
        Ok(order) => match write(&order) {
            Ok(()) => ExitCode::SUCCESS,
            Err(error) => {
                eprintln!("order: {error}");
                ExitCode::from(2)
            }
        },
        Err(refusal) => {
            eprintln!("order: {refusal}");
            ExitCode::from(1)
        }
    }
}
