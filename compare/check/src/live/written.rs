//! The writer of orders beside the Rust's, and what both readers make of the
//! orders that it writes.
use super::{BLOCK, Counts, What};
use crate::{
    driver::Class,
    lent::given,
    orders,
    random::Random,
    settings::{Made, settings},
};
use ours::{host, probe};
use player::order::{
    self, Answer, ODD_MARK, OFF_THE_SCALE, OVERFULL, ROOM, SHEET_TOO_SMALL, field, lent_noise,
    number_bytes,
    writer::{BAD_CALL, Given, ORDER_MOST},
};
use std::panic::{AssertUnwindSafe, catch_unwind};

/// The settings of one block. The same seed and number give the same settings,
/// which are not made as the orders of that block are.
pub fn block(seed: u64, number: u64) -> Counts {
    let start = Random::new(!seed.wrapping_add(number << 32)).bits();
    let r = &mut Random::new(start);
    let mut counts = Counts::default();
    for i in 0..BLOCK {
        let made = settings(r);
        let one = || compare(&made, &mut counts);
        if catch_unwind(AssertUnwindSafe(one)).is_err() {
            let input = (made.given, made.lent, made.start);
            counts.panicked(What::Written, "write_order", &input);
        }
        if i % 4 == 0 {
            let bytes = orders::order(r).bytes;
            let start = r.bits() as u16;
            let one = || from_order(&bytes, start, &mut counts);
            if catch_unwind(AssertUnwindSafe(one)).is_err() {
                counts.panicked(What::FromOrder, "read_order", &bytes);
            }
        }
    }
    counts
}

fn write(given: &Given, out: &mut [u8]) -> Answer<usize> {
    let Given {
        numbers,
        mode,
        fit,
        cutouts,
        saved,
    } = given;
    host::write_order(numbers, [*mode, *fit], cutouts, saved, out)
}

fn read(order: &[u8]) -> Answer<Given> {
    probe::read_order(order).map(|settings| given(&settings))
}

fn compare(made: &Made, counts: &mut Counts) {
    let Made {
        given, lent, start, ..
    } = made;
    let (ours, theirs) = written(given, *lent, *start);
    let (answer, out) = ours;
    let input = || (given.clone(), *lent, *start);
    counts.compare(What::Written, "write_order", input, ours, theirs);
    for class in classes(made, answer) {
        counts.class(class);
    }
    if let Ok(length) = answer {
        read_back(given, &out[..length], *start, counts);
    }
    // What a reader says of an order that carries the same, with every field.
    let read_as = match answer {
        Err(BAD_CALL) => return,
        Ok(_) | Err(SHEET_TOO_SMALL) => Ok(one_nan(given)),
        Err(refusal) => Err(refusal),
    };
    let full = every_field(given);
    let input = || full.clone();
    counts.compare(What::EveryField, "read_order", input, read(&full), read_as);
}

/// An answer and the lent bytes.
type Written = (Answer<usize>, [u8; ROOM]);

/// The library's, and the Rust's.
fn written(given: &Given, lent: usize, start: u16) -> (Written, Written) {
    (
        lent_noise(lent, start, |out| write(given, out)),
        lent_noise(lent, start, |out| given.write(out)),
    )
}

/// Both readers give the settings after the replacements, and these are
/// written to the same bytes.
fn read_back(given: &Given, order: &[u8], start: u16, counts: &mut Counts) {
    let replaced = given.replaced();
    let input = || order.to_vec();
    let expected = || Ok(replaced.clone());
    let ours = read(order);
    let theirs = order::read(order).map(|settings| Given::from(&settings));
    counts.compare(What::ReadByTheirs, "read_order", input, theirs, expected());
    counts.compare(
        What::ReadByOurs,
        "read_order",
        input,
        ours.clone(),
        expected(),
    );
    if let Ok(read) = ours {
        let (again, out) = lent_noise(ORDER_MOST, start, |out| write(&read, out));
        let again = again.map(|length| out[..length].to_vec());
        let input = || (read.clone(), ORDER_MOST, start);
        counts.compare(What::Again, "write_order", input, again, Ok(order.to_vec()));
    }
}

/// An order as another program may write it: if it is accepted, what it says is
/// written no longer than it is, and read back after the replacements.
fn from_order(order: &[u8], start: u16, counts: &mut Counts) {
    let Ok(settings) = read(order) else {
        return;
    };
    let (ours, theirs) = written(&settings, ORDER_MOST, start);
    let (answer, out) = ours;
    let length = answer.unwrap_or(0);
    counts.class((
        "generated orders, written",
        match length {
            _ if length < order.len() => "shorter",
            _ if out[..length] == *order => "the same",
            _ => "as long",
        },
    ));
    let ours = (ours, length <= order.len(), read(&out[..length]));
    let theirs = (theirs, true, Ok(settings.replaced()));
    let input = || order.to_vec();
    counts.compare(What::FromOrder, "read_order", input, ours, theirs);
}

/// An order with all fields, with the numbers as they are given.
fn every_field(given: &Given) -> Vec<u8> {
    let [screen, picture, game] = [0..2, 2..6, 6..9].map(|part| &given.numbers[part]);
    let numbers = |numbers: &[f32]| number_bytes(numbers.iter().copied());
    [
        field(1, &numbers(screen)),
        field(2, &numbers(picture)),
        field(3, &[given.mode]),
        field(4, &[given.fit]),
        field(5, &numbers(game)),
        field(6, &numbers(&given.cutouts)),
        field(7, &numbers(&given.saved)),
    ]
    .concat()
}

/// The library's numbers have one NaN: it is what any NaN is read as.
fn one_nan(given: &Given) -> Given {
    let mut given = given.clone();
    for n in given.saved.iter_mut().filter(|n| n.is_nan()) {
        *n = f32::from_bits(0x7FC0_0000);
    }
    given
}

fn classes(made: &Made, answer: Answer<usize>) -> Vec<Class> {
    let Made {
        given, fault, lent, ..
    } = made;
    let mut classes = vec![
        ("settings, fault", *fault),
        (
            "settings, answer",
            match answer {
                Ok(_) => "written",
                Err(ODD_MARK) => "5 odd mark",
                Err(OFF_THE_SCALE) => "6 off the scale",
                Err(OVERFULL) => "7 overfull",
                Err(SHEET_TOO_SMALL) => "8 sheet too small",
                Err(BAD_CALL) => "100 wrong call",
                Err(_) => "other",
            },
        ),
    ];
    if answer == Err(SHEET_TOO_SMALL) {
        let exact = given.written().map_or(0, |order| order.len());
        let short = match lent {
            0 => "no bytes",
            _ if lent + 1 == exact => "one short",
            _ => "shorter",
        };
        classes.push(("settings, lent", short));
    }
    let Ok(length) = answer else {
        return classes;
    };
    let there = |there: bool| if there { "written" } else { "left out" };
    let many = |count: usize, most: usize| match count {
        0 => "none",
        _ if count < 4 * most => "some",
        _ => "full",
    };
    let order = given.replaced();
    let [w, h, x, y, width, height, scale, across, down] = order.numbers;
    let picture = [x, y, width, height] != [0., 0., w.max(1.), h.max(1.)];
    let game = [scale, across, down] != [1., 0.5, 0.5];
    let numbers = given.numbers.iter().chain(&given.cutouts);
    let zero = |n: &f32| *n == 0. && n.is_sign_negative();
    classes.extend([
        (
            "settings, lent",
            if *lent == length { "exact" } else { "longer" },
        ),
        ("settings, picture", there(picture)),
        ("settings, mode", there(given.mode != 0)),
        ("settings, fit", there(given.fit != 1)),
        ("settings, scale and offset", there(game)),
        ("settings, cutouts", many(given.cutouts.len(), 16)),
        ("settings, saved", many(given.saved.len(), 32)),
    ]);
    if w < 1. || h < 1. {
        classes.push(("settings, screen", "below 1"));
    }
    if numbers.chain(&given.saved).any(zero) {
        classes.push(("settings, replaced", "negative zero"));
    }
    if given.saved.iter().any(|n| n.is_nan()) {
        classes.push(("settings, replaced", "NaN"));
    }
    if given.saved.iter().any(|n| n.is_infinite()) {
        classes.push(("settings, replaced", "infinity"));
    }
    classes
}
