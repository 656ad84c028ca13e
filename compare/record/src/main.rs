//! Writes the lists that crates/replay and crates/corner_cases run, and the
//! answers of the run that the examples of host/ play; and prints what the orders
//! are.
mod cases;
mod classes;
mod functions;
mod steps;

use check::{
    generate::{any_number, touch},
    orders,
    random::Random,
};
use classes::Tally;
use player::{
    order,
    tracker::{self, Fingers},
};
use std::{env, fs, path::Path, process::ExitCode};
use steps::List;

/// The seed and how many orders; longer ones are passed over.
const SEED: u64 = 77;
const ORDERS: usize = 600;
const LONGEST: usize = 800;
/// The last of them have edges at and next to halves of tenths, for their sheets.
const EDGES: usize = 40;

/// Generated orders, each with its layout, its sheet, three touches, of every
/// tenth a viewport, and its settings written.
fn orders() -> (List, Tally) {
    let r = &mut Random::new(SEED);
    let (mut list, mut tally) = (List::default(), Tally::default());
    let mut count = 0;
    while count < ORDERS {
        let order = if count < ORDERS - EDGES {
            orders::order(r)
        } else {
            orders::edges(r)
        };
        if order.bytes.len() > LONGEST {
            continue;
        }
        list.order(&order.bytes);
        let exact = order.length as u16;
        let (more, fewer) = (exact + r.below(100) as u16, r.below(exact.into()) as u16);
        let few = r.pick(&[exact - 1, fewer]);
        let room = r.pick(&[exact, exact, more, more, few]);
        let fill = r.bits() as u8;
        tally.layout(&order, list.layout(room, fill));
        list.sheet();
        let settings = order::read(&order.bytes);
        if let Ok(settings) = &settings {
            tally.accepted(settings);
        }
        for _ in 0..3 {
            let at = match &settings {
                Ok(settings) => touch(r, &settings.layout().into()),
                Err(_) => [any_number(r), any_number(r)],
            };
            tally.touch(list.touch(at, r.bits() as u16));
        }
        if count % 10 == 0 {
            let top = |r: &mut Random| r.pick(&[0., 24., 24.5, 48., 80., 8192.]);
            let tops = [top(r), r.pick(&[1., 1., 1., -1.]) * top(r)];
            let answer = list.viewport(tops, room, fill);
            tally.add("viewports", answer.map_or("refused", |_| "accepted"));
        }
        tally.written(&order, list.written_in_turn(fill));
        count += 1;
    }
    (list, tally)
}

/// A run of fingers, each call with its answer: host/examples/fingers.c says
/// what its lines are.
fn run(text: &str, order: &[u8]) -> String {
    let mut fingers = Fingers::default();
    let lines = text.lines().map(|line| {
        if line.starts_with('#') {
            return line.to_string() + "\n";
        }
        let call = line.split('=').next().unwrap_or_default().trim_end();
        let words: Vec<&str> = call.split_whitespace().collect();
        let made = cases::finger_call(&words).expect("a call");
        let answer = tracker::order_call(&mut fingers, order, made);
        format!("{call} = {}\n", cases::finger_answer(answer))
    });
    lines.collect()
}

fn main() -> ExitCode {
    let check = match env::args().nth(1).as_deref() {
        None => false,
        Some("--check") => true,
        Some(_) => {
            eprintln!(
                "usage: record [--check]   (--check: writes nothing, sees that the lists are so)"
            );
            return ExitCode::from(2);
        }
    };
    let root = Path::new(env!("CARGO_MANIFEST_DIR")).join("../..");
    let bytes = |name| fs::read(root.join(name)).expect(name);
    let text = |name| String::from_utf8(bytes(name)).expect(name);
    let (orders, tally) = orders();
    let cases = cases::list(&text("crates/replay/data/cases.txt"));
    let functions = functions::list(&text("crates/corner_cases/data/functions.txt"));
    let run = run(
        &text("host/examples/fingers.run"),
        &bytes("examples/standard.order"),
    );
    for (name, list) in [
        ("crates/replay/data/cases", cases.bytes),
        ("crates/replay/data/orders", orders.bytes),
        ("crates/corner_cases/data/functions", functions),
        ("host/examples/fingers.run", run.into_bytes()),
    ] {
        let path = root.join(name);
        if !check {
            fs::write(&path, &list).expect("the list is written");
        } else if fs::read(&path).ok() != Some(list) {
            eprintln!("{} is another list", path.display());
            return ExitCode::FAILURE;
        }
    }
    println!("{tally}");
    ExitCode::SUCCESS
}
