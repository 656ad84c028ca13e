//! Runs of fingers: films whose layouts they lie on, and the calls.
use crate::{
    generate::{any_number, edge_touch},
    orders,
    random::Random,
};
use player::{
    Rect,
    access::{LayoutData, native::Layout},
    order::{self, Answer},
    tracker::{Act, Call, Fingers},
};

/// An order and its layout by the Rust, also as plain data.
pub struct Film {
    pub order: Vec<u8>,
    pub layout: Answer<(Layout, LayoutData)>,
}

impl Film {
    pub fn of(order: Vec<u8>) -> Self {
        let layout = order::read(&order).map(|settings| {
            let layout = settings.layout();
            let data = LayoutData::from(&layout);
            (layout, data)
        });
        Self { order, layout }
    }
}

/// Mostly of a sound order.
pub fn film(r: &mut Random) -> Film {
    Film::of(match r.below(16) {
        0 => orders::damaged(r).bytes,
        _ => orders::sound(r).bytes,
    })
}

/// Whatever memory a host may lend; a fresh tracker is all zeros.
pub fn memory(r: &mut Random) -> Fingers {
    [(); 10].map(|()| {
        let [any, mask] = [0; 2].map(|_| r.bits() as u16);
        let button = 1 << r.below(16);
        let held = r.pick(&[0, 0, 0, 1, 1, 256, u16::MAX, any]);
        [held, r.pick(&[0, button, button, mask])]
    })
}

/// A call on a film: mostly of one of three fingers, and one that is accepted.
/// `last` is where each finger was.
pub fn call(r: &mut Random, film: &Film, fingers: &Fingers, last: &[[f32; 2]; 10]) -> Call {
    let finger = match r.below(64) {
        0 => r.bits() as u8,
        1 => r.pick(&[10, 11, 138, 255]),
        2..16 => r.below(10) as u8,
        _ => r.below(3) as u8,
    };
    let held = fingers.get(usize::from(finger)).is_some_and(|f| f[0] != 0);
    let act = match (r.below(8), held) {
        (0, true) | (1, false) => Act::Lift,
        (1, true) => Act::Press,
        (0, false) => Act::Move,
        (_, true) => Act::Move,
        (_, false) => Act::Press,
    };
    let last = last.get(usize::from(finger)).copied().unwrap_or_default();
    (act, finger, point(r, film, last))
}

fn centre(r: Rect) -> [f32; 2] {
    [r.x + r.w / 2., r.y + r.h / 2.]
}

/// On an edge of an element, near where the finger was, about as far from one
/// cap as from another, or anywhere.
fn point(r: &mut Random, film: &Film, last: [f32; 2]) -> [f32; 2] {
    let Ok((layout, data)) = &film.layout else {
        return [any_number(r), any_number(r)];
    };
    match r.below(16) {
        0 => [any_number(r), any_number(r)],
        1..4 => edge_touch(r, layout),
        4..10 => last.map(|n| n + r.between(-5., 5.)),
        _ => {
            // The first four controls are the caps, each next to the one before.
            let first = r.below(4) as usize;
            let [a, b] = [first, (first + 1) % 4].map(|i| centre(data.controls[i].bounds));
            let part = r.between(0.4, 0.6);
            let between = |i: usize| a[i] * part + b[i] * (1. - part);
            [between(0), between(1)].map(|n| n + r.between(-2., 2.))
        }
    }
}
