//! Fingers on the films of orders, beside the tracker of `player` over the
//! Rust's `mask_near` with the nearest hypot: what each call is answered, and
//! every byte of the tracker after it.
use super::{BLOCK, Counts, What};
use crate::{
    driver::Class,
    fingers::{Film, call, film, memory},
    masks::mask_near,
    nearest::nearest_hypot,
    random::Random,
};
use ours::host;
use player::{
    order::Answer,
    tracker::{self, Act, Call, Fingers},
};
use std::panic::{AssertUnwindSafe, catch_unwind};

/// How many calls a run has, and after how many of them a tracker that did not
/// start fresh gets other contents.
const RUN: u64 = 100;
const OTHER: u64 = 5;

/// The runs of one block. The same seed and number give the same runs, which
/// are not made as those of the other blocks are.
pub fn block(seed: u64, number: u64) -> Counts {
    let start = Random::new((!seed.wrapping_add(number << 32)).reverse_bits()).bits();
    let r = &mut Random::new(start);
    let mut counts = Counts::default();
    for _ in 0..BLOCK / RUN {
        run(r, &mut counts);
    }
    counts
}

fn run(r: &mut Random, counts: &mut Counts) {
    let films = r.list(1, 4, film);
    let mut film = &films[0];
    let mut tracker = Fingers::default();
    let mut last = [[0.; 2]; 10];
    let fresh = r.below(4) > 0;
    counts.class(("runs", if fresh { "fresh" } else { "any memory" }));
    for i in 0..RUN {
        if !fresh && i % OTHER == 0 {
            tracker = memory(r);
        }
        let on = film;
        if r.below(8) == 0 {
            film = &films[r.below(films.len() as u64) as usize];
        }
        if !std::ptr::eq(on, film) {
            counts.class(("finger calls on", "another film than the one before"));
        }
        let made @ (_, finger, at) = call(r, film, &tracker, &last);
        let before = tracker;
        let one = || compare(film, &mut tracker, made, counts);
        if catch_unwind(AssertUnwindSafe(one)).is_err() {
            let input = (film.order.clone(), before, made);
            counts.panicked(What::Finger, "order_finger", &input);
        }
        if let Some(last) = last.get_mut(usize::from(finger)) {
            *last = at;
        }
    }
}

/// One call on both sides; the tracker goes on as the reference has it.
fn compare(film: &Film, tracker: &mut Fingers, made: Call, counts: &mut Counts) {
    let before = *tracker;
    let mut lent = Lent::of(before);
    let ours = (lent.call(&film.order, made), lent.tracker);
    assert_eq!((lent.before, lent.after), (AROUND, AROUND));
    let layout = film.layout.as_ref().map_err(|n| *n);
    let theirs = layout.and_then(|(_, layout)| {
        let touch = |at, previous| mask_near(layout, at, previous, nearest_hypot);
        for class in classes(before, made, touch) {
            counts.class(class);
        }
        tracker::call(tracker, made, touch)
    });
    let input = || (film.order.clone(), before, made);
    counts.class(answered(made, theirs));
    counts.class(pointed(made));
    counts.compare(
        What::Finger,
        "order_finger",
        input,
        ours,
        (theirs, *tracker),
    );
}

/// What lies before and behind a tracker, and stays.
const AROUND: [u16; 8] = [0xA5A5; 8];

#[repr(C)]
struct Lent {
    before: [u16; 8],
    tracker: Fingers,
    after: [u16; 8],
}

impl Lent {
    fn of(tracker: Fingers) -> Self {
        Self {
            before: AROUND,
            tracker,
            after: AROUND,
        }
    }
    fn call(&mut self, order: &[u8], (act, finger, at): Call) -> Answer<[u16; 2]> {
        match act {
            Act::Press => host::press(&mut self.tracker, order, finger, at),
            Act::Move => host::move_to(&mut self.tracker, order, finger, at),
            Act::Lift => host::lift(&mut self.tracker, order, finger),
        }
    }
}

fn answered((act, ..): Call, answer: Answer<[u16; 2]>) -> Class {
    let name = match (act, answer) {
        (Act::Press, Ok(_)) => "press",
        (Act::Move, Ok(_)) => "move",
        (Act::Lift, Ok(_)) => "lift",
        (_, Err(tracker::NO_SUCH_FINGER)) => "refused, 9",
        (Act::Press, Err(tracker::WRONG_STATE)) => "press refused, 10",
        (Act::Move, Err(tracker::WRONG_STATE)) => "move refused, 10",
        (Act::Lift, Err(tracker::WRONG_STATE)) => "lift refused, 10",
        (_, Err(_)) => "refused, the order",
    };
    ("finger calls", name)
}

fn pointed((act, _, at): Call) -> Class {
    let name = match act {
        Act::Lift => "no point",
        _ if at.iter().any(|n| n.is_nan()) => "a point with NaN",
        _ if at.iter().any(|n| n.is_infinite()) => "an infinite point",
        _ => "a finite point",
    };
    ("finger calls at", name)
}

/// Where a wrong tracker would show: moves of which the finger's own last mask
/// decides, or another finger's would have; presses where a mask is left of a
/// finger that is not held; fingers not held that have one in the combined mask's
/// way.
fn classes(
    before: Fingers,
    (act, finger, at): Call,
    touch: impl Fn([f32; 2], u16) -> u16,
) -> Vec<Class> {
    let Some(&[held, mask]) = before.get(usize::from(finger)) else {
        return Vec::new();
    };
    let mut classes = Vec::new();
    let mut add = |met: bool, name| {
        if met {
            classes.push(("finger calls that tell", name));
        }
    };
    let with = |previous| touch(at, previous);
    let others = before.iter().filter(|f| f[0] != 0 && f[1] != mask);
    match (act, held != 0) {
        (Act::Move, true) => {
            add(with(mask) != with(0), "move, its last mask counts");
            let mut masks = others.map(|f| f[1]);
            add(
                masks.any(|other| with(other) != with(mask)),
                "move, another finger's would",
            );
        }
        (Act::Press, false) => add(with(mask) != with(0), "press, a mask left would"),
        _ => (),
    }
    let left = before.iter().any(|f| f[0] == 0 && f[1] != 0);
    add(left, "a finger not held has a mask");
    classes
}

#[cfg(test)]
mod tests {
    use super::*;
    use crate::driver::lines;

    /// Each class of answers, and each that tells, in a block.
    #[test]
    fn every_class_is_met() {
        let mut counts = Counts::default();
        for number in 0..4 {
            counts.add(block(1, number));
        }
        assert_eq!(counts.shown, [""; 0]);
        for (by, names) in [
            ("runs", 2),
            ("finger calls", 8),
            ("finger calls on", 1),
            ("finger calls at", 4),
            ("finger calls that tell", 4),
        ] {
            let classes = counts.tally.iter().filter(|(class, _)| class.0 == by);
            let met = classes.filter(|(_, count)| **count > 20).count();
            assert_eq!(met, names, "{by}: {:?}", lines(&counts.tally));
        }
    }
}
