//! Orders written: what hosts call beside the plain writer of `player`, in
//! classes of settings.
use crate::orders::duel;
use check::{
    generate, orders,
    random::Random,
    settings::{self, Made},
};
use ours::host;
use player::order::{
    self, Answer, ROOM,
    writer::{Given, ORDER_MOST},
};
use std::hint::black_box;

/// How many settings of a class are written in turn.
const SETTINGS: i64 = 256;

/// A class: its name, its settings, how many bytes are lent.
type Class = (&'static str, fn(&mut Random) -> Given, usize);

const CLASSES: &[Class] = &[
    ("write screen alone", |r| tablet(r, 0, 0), ORDER_MOST),
    ("write tags 1 to 5", |r| small_fields(r, 0, 0), ORDER_MOST),
    (
        "write 2 cutouts, 15 saved",
        |r| tablet(r, 2, 15),
        ORDER_MOST,
    ),
    (
        "write 16 cutouts, 32 saved",
        |r| small_fields(r, 16, 32),
        ORDER_MOST,
    ),
    ("write generated orders", from_order, ORDER_MOST),
    ("write generated settings", settings::sound, ORDER_MOST),
    ("write refused", refused, ORDER_MOST),
    (
        "write refused by the last saved",
        |r| tablet(r, 16, 33),
        ORDER_MOST,
    ),
    ("write refused as too small", |r| tablet(r, 2, 15), 20),
];

/// A tablet's screen with cutouts and saved rectangles, and nothing else.
fn tablet(r: &mut Random, cutouts: usize, saved: usize) -> Given {
    let [w, h] = generate::tablet(r);
    let cutouts = (0..cutouts).flat_map(|_| {
        let cutout = generate::rect_on(r, [w, h]);
        [cutout.x, cutout.y, cutout.w, cutout.h]
    });
    let cutouts = cutouts.collect();
    let saved = (0..4 * saved).map(|_| r.between(0., 1.)).collect();
    Given {
        numbers: [w, h, 0., 0., w.max(1.), h.max(1.), 1., 0.5, 0.5],
        mode: 0,
        fit: 1,
        cutouts,
        saved,
    }
}

/// The same with all other fields.
fn small_fields(r: &mut Random, cutouts: usize, saved: usize) -> Given {
    let mut given = tablet(r, cutouts, saved);
    given.numbers[3] = -r.between(1., 80.);
    given.numbers[6] = r.between(0.25, 0.75);
    given.mode = r.pick(&[1, 2, 4, 6]);
    given.fit = r.pick(&[0, 2]);
    given
}

/// What a generated order says.
fn from_order(r: &mut Random) -> Given {
    let settings = order::read(&orders::sound(r).bytes).expect("a sound order");
    Given::from(&settings)
}

/// Generated settings with a fault.
fn refused(r: &mut Random) -> Given {
    loop {
        let Made { given, .. } = settings::settings(r);
        if given.written().is_err() {
            return given;
        }
    }
}

fn write(given: &Given, out: &mut [u8]) -> Answer<usize> {
    let marks = [given.mode, given.fit];
    host::write_order(&given.numbers, marks, &given.cutouts, &given.saved, out)
}

/// The answers are compared before they are timed.
pub fn run(chosen: &dyn Fn(&str) -> bool) {
    for (name, make, lent) in CLASSES.iter().filter(|(name, ..)| chosen(name)) {
        let given = Random::new(1).list(SETTINGS, SETTINGS, make);
        let (mut theirs, mut ours) = ([0; ROOM], [0; ROOM]);
        let (theirs, ours) = (&mut theirs[..*lent], &mut ours[..*lent]);
        for given in &given {
            assert_eq!(given.write(theirs), write(given, ours), "{name}");
            assert_eq!(theirs, ours, "{name}");
        }
        duel(
            name,
            &given,
            |given| given.write(black_box(&mut *theirs)),
            |given| write(given, black_box(&mut *ours)),
        );
    }
}
