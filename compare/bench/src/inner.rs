//! Inner functions.
use crate::race::{race, timed};
use check::{lent, random::Random};
use ours::{
    host::Fingers,
    probe::{self, Runs},
};
use player::{
    Rect,
    access::{
        self, LayoutData,
        native::{self, Layout},
    },
};
use std::{hint::black_box, time::Duration};

/// How often each input is used in a row.
const TIMES: usize = 16;
const INPUTS: usize = 64;

pub fn run(chosen: &dyn Fn(&str) -> bool) {
    for (name, run) in BENCHES {
        if chosen(name) {
            run(name, &mut Random::new(1));
        }
    }
}

type Bench = fn(&str, &mut Random);

const BENCHES: &[(&str, Bench)] = &[
    ("hypot", |n, r| hypot(n, r, 0.)),
    // Each call waits for the answer of the last one, as a touch waits for it.
    ("hypot in a chain", |n, r| hypot(n, r, f32::MIN_POSITIVE)),
    ("clear_picture_aspect 3 centred", |n, r| {
        clear(n, r, 3, false)
    }),
    ("clear_picture_aspect 3 side", |n, r| clear(n, r, 3, true)),
    ("clear_picture_aspect 15 centred", |n, r| {
        clear(n, r, 15, false)
    }),
    ("clear_picture_aspect 15 side", |n, r| clear(n, r, 15, true)),
    ("anchor_toolbar 0 cutouts", |n, r| anchor(n, r, 0, 0.)),
    ("anchor_toolbar 1 cutout", |n, r| anchor(n, r, 1, 0.)),
    ("anchor_toolbar 3 cutouts", |n, r| anchor(n, r, 3, 0.)),
    ("anchor_toolbar 16 cutouts", |n, r| anchor(n, r, 16, 0.)),
    ("anchor_toolbar covered", |n, r| anchor(n, r, 0, 24.5)),
    ("mask_near controls", |n, r| mask(n, r, a_control)),
    ("mask_near d-pad", |n, r| mask(n, r, |_, l| l.dpad)),
    ("mask_near game", |n, r| mask(n, r, |_, l| l.game)),
    // Beside the Rust's mask_near.
    ("press controls", |n, r| press(n, r, a_control)),
    ("press d-pad", |n, r| press(n, r, |_, l| l.dpad)),
    ("press game", |n, r| press(n, r, |_, l| l.game)),
    ("arranged", |n, r| arranged(n, r, false)),
    ("arranged compact", |n, r| arranged(n, r, true)),
    ("side_rails 0 cutouts", |n, r| side_rails(n, r, 0)),
    ("side_rails 3 cutouts", |n, r| side_rails(n, r, 3)),
    ("controller_band", controller_band),
    ("avoid_cutouts 0 cutouts", |n, r| avoid(n, r, 0)),
    ("avoid_cutouts 1 cutout", |n, r| avoid(n, r, 1)),
    ("avoid_cutouts 16 cutouts", |n, r| avoid(n, r, 16)),
];

/// Times a function of the Rust on each of `natives`, and ours on each of
/// `lent`.
fn duel<N, T, L, U>(
    name: &str,
    mut natives: Vec<N>,
    theirs: impl Fn(&mut N) -> T,
    lent: Vec<L>,
    ours: impl Fn(&L, Runs) -> U,
) {
    let theirs = || {
        timed(|| {
            for native in &mut natives {
                for _ in 0..TIMES {
                    black_box(theirs(black_box(native)));
                }
            }
        })
    };
    duel_passes(name, theirs, lent, ours);
}

/// Ours three times: all runs inside one call, where the compiler may move work
/// out of their loop; one run a call; and no run, which is the lending alone.
/// The second less the third is a call that is not flattered.
fn duel_passes<L, U>(
    name: &str,
    theirs: impl FnMut() -> Duration,
    lent: Vec<L>,
    ours: impl Fn(&L, Runs) -> U,
) {
    let (lent, ours) = (&lent, &ours);
    let pass = |calls: usize, times: usize| {
        move || {
            timed(|| {
                for lent in lent {
                    for _ in 0..calls {
                        black_box(ours(black_box(lent), Runs { times, step: 0. }));
                    }
                }
            })
        }
    };
    let passes = &mut [
        ("Rust", Box::new(theirs) as _),
        ("ours", Box::new(pass(1, TIMES)) as _),
        ("once", Box::new(pass(TIMES, 1)) as _),
        ("lending", Box::new(pass(TIMES, 0)) as _),
    ];
    let times = race(name, lent.len() * TIMES, passes);
    let net = times[2] - times[3];
    println!(
        "{name:<42} {:<8} {net:>9.1} ns  ratio {:.2}",
        "net",
        net / times[0]
    );
}

fn inputs<I>(r: &mut Random, input: impl FnMut(&mut Random) -> I) -> Vec<I> {
    let count = INPUTS as i64;
    r.list(count, count, input)
}

/// A usual screen.
fn screen(r: &mut Random) -> [f32; 2] {
    [r.between(600., 1400.), r.between(400., 1400.)]
}

/// A layout on its screen, as an order gives it.
fn layout(r: &mut Random) -> ([f32; 2], LayoutData) {
    let screen @ [w, h] = screen(r);
    let layout = r.pick(&[access::new, access::analog_default, access::psp])(w, h);
    (screen, layout)
}

/// Cutouts at the top, the first ones where the toolbar's bars are.
fn cutouts(r: &mut Random, w: f32, count: usize) -> Vec<Rect> {
    let first = [0., w - 100., w / 2. - 50.].map(|x| Rect::new(x, 0., 100., 30.));
    let more = std::iter::repeat_with(|| Rect::new(r.between(0., w), 0., 20., 30.));
    first.into_iter().chain(more).take(count).collect()
}

/// `link` is how much of an answer is added to the next call's argument; with 0
/// the calls are independent.
fn hypot(name: &str, r: &mut Random, link: f32) {
    // More pairs than the processor can learn.
    let pairs = r.list(8192, 8192, |r| {
        (r.between(-500., 500.), r.between(-500., 500.))
    });
    let each = |f: fn(f32, f32) -> f32| {
        let pairs = &pairs;
        Box::new(move || {
            timed(|| {
                let mut last = 0.;
                for &(a, b) in pairs {
                    last = if link == 0. {
                        f(black_box(a), b)
                    } else {
                        f(a + last * link, b)
                    };
                    black_box(last);
                }
            })
        })
    };
    race(
        name,
        pairs.len(),
        &mut [
            ("Rust", each(f32::hypot)),
            ("ours", each(probe::hypot)),
            ("a + b", each(|a, b| a + b)),
        ],
    );
}

fn clear(name: &str, r: &mut Random, count: usize, side: bool) {
    const ASPECT: f32 = 4. / 3.;
    let inputs = inputs(r, |r| {
        let [w, h] = screen(r);
        let size = |r: &mut Random| r.between(20., 120.);
        let mut rects: Vec<Rect> = (0..count)
            .map(|_| Rect::new(r.between(0., w), r.between(0., h), size(r), size(r)))
            .collect();
        if side {
            rects[0] = Rect::new(w / 2. - 5., 0., 10., h + 1.);
        }
        ([w, h], rects)
    });
    let lent = inputs.iter().map(|(s, rects)| (*s, lent::list(rects)));
    let lent = lent.collect();
    duel(
        name,
        inputs,
        |([w, h], rects)| access::clear_picture_aspect(*w, *h, rects, ASPECT),
        lent,
        |([w, h], rects), runs| probe::clear_picture_aspect(*w, *h, rects, ASPECT, runs),
    );
}

fn anchor(name: &str, r: &mut Random, count: usize, covered: f32) {
    let inputs = inputs(r, |r| {
        let (screen, layout) = layout(r);
        (screen, layout, cutouts(r, screen[0], count))
    });
    let lent = inputs.iter();
    let lent = lent.map(|(s, layout, cutouts)| (*s, lent::layout(layout), lent::list(cutouts)));
    let natives = inputs.iter();
    let natives = natives.map(|(s, layout, cutouts)| (*s, Layout::from(layout), cutouts));
    duel(
        name,
        natives.collect(),
        |([w, h], layout, cutouts)| layout.anchor_toolbar(*w, *h, 0., covered, cutouts),
        lent.collect(),
        |([w, h], layout, cutouts), runs| {
            probe::anchor_toolbar(layout, *w, *h, [0., covered], cutouts, runs)
        },
    );
}

fn a_control(r: &mut Random, layout: &LayoutData) -> Rect {
    let index = r.below(layout.controls.len() as u64) as usize;
    layout.controls[index].bounds
}

/// An element of a layout.
type Element = fn(&mut Random, &LayoutData) -> Rect;

/// Touches inside an element of the layout.
fn touches(r: &mut Random, element: Element) -> Vec<(LayoutData, [f32; 2])> {
    inputs(r, |r| {
        let layout = layout(r).1;
        let e = element(r, &layout);
        let point = [(e.x, e.w), (e.y, e.h)].map(|(x, w)| x + w * r.between(0., 1.));
        (layout, point)
    })
}

fn mask(name: &str, r: &mut Random, element: Element) {
    beside_mask_near(name, r, element, |layout, [x, y], runs| {
        probe::mask_near(layout, x, y, 0, runs)
    });
}

/// A press of a tracker that holds another finger.
fn press(name: &str, r: &mut Random, element: Element) {
    let mut held = Fingers::default();
    held[3] = [1, 0x40];
    beside_mask_near(name, r, element, |layout, at, runs| {
        probe::press(&mut held.clone(), layout, 0, at, runs)
    });
}

fn beside_mask_near(
    name: &str,
    r: &mut Random,
    element: Element,
    ours: impl Fn(&probe::Layout, [f32; 2], Runs) -> u16,
) {
    let inputs = touches(r, element);
    let lent = inputs.iter().map(|(l, point)| (lent::layout(l), *point));
    let natives = inputs.iter().map(|(l, point)| (Layout::from(l), *point));
    duel(
        name,
        natives.collect(),
        |(layout, [x, y])| native::mask_near(layout, *x, *y, 0),
        lent.collect(),
        |(layout, at), runs| ours(layout, *at, runs),
    );
}

fn arranged(name: &str, r: &mut Random, compact: bool) {
    let screens = inputs(r, screen);
    duel(
        name,
        screens.clone(),
        |[w, h]| native::arranged(*w, *h, compact),
        screens,
        |[w, h], runs| probe::arranged(*w, *h, compact, runs),
    );
}

fn side_rails(name: &str, r: &mut Random, count: usize) {
    let inputs = inputs(r, |r| {
        let screen = screen(r);
        (screen, cutouts(r, screen[0], count))
    });
    let lent = inputs.iter().map(|(s, cutouts)| (*s, lent::list(cutouts)));
    let lent = lent.collect();
    duel(
        name,
        inputs,
        |([w, h], cutouts)| native::side_rails(*w, *h, *h, cutouts),
        lent,
        |([w, h], cutouts), runs| probe::side_rails(*w, *h, *h, cutouts, runs),
    );
}

fn controller_band(name: &str, r: &mut Random) {
    let inputs = inputs(r, |r| {
        let (w, h) = (r.between(800., 1200.), r.between(1200., 1600.));
        (w, h, r.below(3) as u8, Rect::new(0., 0., w, h))
    });
    let lent = inputs.iter();
    let lent = lent.map(|(w, h, kind, picture)| (*w, *h, *kind, lent::list(&[*picture])));
    let lent = lent.collect();
    duel(
        name,
        inputs,
        |(w, h, kind, picture)| native::controller_band(*w, *h, *kind > 0, *kind > 1, *picture),
        lent,
        |(w, h, kind, picture), runs| probe::controller_band(*w, *h, *kind, picture, runs),
    );
}

/// Each cutout is on an element.
fn avoid(name: &str, r: &mut Random, count: usize) {
    let inputs = inputs(r, |r| {
        let (screen, layout) = layout(r);
        let cutouts: Vec<Rect> = (0..count)
            .map(|_| {
                let e = r.pick(&layout.elements());
                Rect::new(e.x + e.w / 2., e.y + e.h / 2., 20., 20.)
            })
            .collect();
        (screen, layout, cutouts)
    });
    let lent = inputs.iter();
    let lent = lent.map(|(s, layout, cutouts)| (*s, lent::layout(layout), lent::list(cutouts)));
    let lent: Vec<([f32; 2], _, _)> = lent.collect();
    let ours = |([w, h], layout, cutouts): &([f32; 2], _, _), runs| {
        probe::avoid_cutouts(layout, *w, *h, cutouts, runs)
    };
    // The Rust leaves its layout as it is, so that one serves all runs.
    if count == 0 {
        let natives = inputs
            .iter()
            .map(|(s, layout, _)| (*s, Layout::from(layout)));
        let theirs = |([w, h], layout): &mut ([f32; 2], Layout)| layout.avoid_cutouts(*w, *h, &[]);
        return duel(name, natives.collect(), theirs, lent, ours);
    }
    // It changes its layout, so that each run needs a new one.
    let theirs = || {
        let time = inputs.iter().map(|([w, h], layout, cutouts)| {
            let mut layouts: Vec<_> = (0..TIMES).map(|_| Layout::from(layout)).collect();
            timed(|| {
                for layout in &mut layouts {
                    black_box(&mut *layout).avoid_cutouts(*w, *h, cutouts);
                    black_box(&layout);
                }
            })
        });
        time.sum()
    };
    duel_passes(name, theirs, lent, ours);
}
