//! Orders, bytes to bytes: what hosts call beside the Rust with the reader and
//! the writer of `player`, in classes of orders.
use crate::race::{race, timed};
use check::{
    generate,
    orders::{self, fit_word},
    random::Random,
};
use ours::host;
use player::{
    access,
    order::{self, Settings},
    sheet,
};
use std::{collections::BTreeMap, hint::black_box, time::Duration};
use thumb_layout::{Finger, LAYOUT_MOST, Tracker};

/// How many orders of a class are called in turn.
const ORDERS: usize = 256;
/// Three modes, two fits, with and without cutouts and saved rectangles.
const CLASSES: usize = 24;

struct Case {
    order: Vec<u8>,
    touch: [f32; 2],
    previous: u16,
}

/// The class of an order of a tablet.
fn class(settings: &Settings) -> String {
    let preset = &settings.preset;
    let mode = match (preset.psp, preset.analog) {
        (true, _) => "psp",
        (_, true) => "analog",
        _ => "standard",
    };
    let fit = fit_word(Some(access::picture_fit(preset)));
    let said = |empty: bool, what: &'static str| if empty { "" } else { what };
    let cutouts = said(settings.cutouts.is_empty(), ", cutouts");
    let saved = said(preset.elements.is_empty(), ", saved");
    format!("{mode} {fit}{cutouts}{saved}")
}

/// Orders of tablets, by class. Those that allow overlap are left out.
fn classes(r: &mut Random) -> BTreeMap<String, Vec<Case>> {
    let mut classes = BTreeMap::<_, Vec<_>>::new();
    let mut full = 0;
    while full < CLASSES {
        let order = orders::sound(r);
        let settings = order::read(&order.bytes).expect("a sound order");
        if order.kind != "tablet" || settings.preset.allow_overlap {
            continue;
        }
        let cases = classes.entry(class(&settings)).or_default();
        if cases.len() < ORDERS {
            cases.push(Case {
                order: order.bytes,
                touch: generate::touch(r, &settings.layout().into()),
                previous: if r.yes() { 0 } else { r.bits() as u16 },
            });
            full += usize::from(cases.len() == ORDERS);
        }
    }
    classes
}

/// Times the orders of a class, under a name.
type Run = fn(&str, &[Case]);

const CALLS: [(&str, Run); 4] = [
    ("layout", layouts),
    ("touch", touches),
    ("move", moves),
    ("film", films),
];

pub fn run(chosen: &dyn Fn(&str) -> bool) {
    let classes = classes(&mut Random::new(1));
    for (call, run) in CALLS {
        for (class, cases) in &classes {
            let name = format!("{call} {class}");
            if chosen(&name) {
                run(&name, cases);
            }
        }
    }
}

/// The answers are compared before they are timed.
fn layouts(name: &str, cases: &[Case]) {
    let (mut theirs, mut ours) = ([0; LAYOUT_MOST], [0; LAYOUT_MOST]);
    for Case { order, .. } in cases {
        assert_eq!(
            order::layout(order, &mut theirs).ok(),
            thumb_layout::layout(order, &mut ours).ok()
        );
        assert_eq!(theirs, ours, "{name}");
    }
    duel(
        name,
        cases,
        |case| order::layout(&case.order, black_box(&mut theirs)),
        |case| thumb_layout::layout(&case.order, black_box(&mut ours)),
    );
}

fn touches(name: &str, cases: &[Case]) {
    duel(
        name,
        cases,
        |case| order::touch(&case.order, case.touch, case.previous),
        |case| {
            let [x, y] = case.touch;
            thumb_layout::touch(&case.order, x, y, case.previous)
        },
    );
}

/// Moves of a finger, beside touches of the same library.
fn moves(name: &str, cases: &[Case]) {
    let touch = |case: &Case| {
        let [x, y] = case.touch;
        thumb_layout::touch(&case.order, x, y, case.previous)
    };
    let mut tracker = Tracker::default();
    let mut move_to = |case: &Case| {
        let [x, y] = case.touch;
        tracker.fingers[7] = Finger {
            held: 1,
            mask: case.previous,
        };
        black_box(&mut tracker).move_to(&case.order, 7, x, y)
    };
    for case in cases {
        let mask = move_to(case).map(|masks| masks.mask);
        assert_eq!(touch(case), mask, "{name}");
    }
    let passes = &mut [
        ("touch", Box::new(|| timed_cases(cases, touch)) as _),
        ("move", Box::new(|| timed_cases(cases, &mut move_to)) as _),
    ];
    race(name, cases.len(), passes);
}

/// The library writes to a lent sheet, the Rust returns one.
fn films(name: &str, cases: &[Case]) {
    let mut ours = [0; 1024];
    for Case { order, .. } in cases {
        let length = host::film(order, &mut ours);
        assert!(sheet::film_sheet(order) == (ours, length), "{name}");
    }
    duel(
        name,
        cases,
        |case| sheet::film_sheet(&case.order),
        |case| host::film(&case.order, black_box(&mut ours)),
    );
}

/// Each contestant goes through all cases, once each, in its turn.
pub fn duel<C, T, U>(
    name: &str,
    cases: &[C],
    mut theirs: impl FnMut(&C) -> T,
    mut ours: impl FnMut(&C) -> U,
) {
    let theirs = || timed_cases(cases, &mut theirs);
    let ours = || timed_cases(cases, &mut ours);
    race(
        name,
        cases.len(),
        &mut [("Rust", Box::new(theirs)), ("ours", Box::new(ours))],
    );
}

fn timed_cases<C, T>(cases: &[C], mut call: impl FnMut(&C) -> T) -> Duration {
    timed(|| {
        for case in cases {
            black_box(call(black_box(case)));
        }
    })
}
