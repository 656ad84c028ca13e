//! Generated settings for the writer of orders: sound ones, ones with faults,
//! and any.
use crate::{
    generate::{self, LIMIT, any_number, number, signed},
    orders::saved_number,
    random::Random,
};
use player::order::{
    ROOM,
    writer::{Given, ORDER_MOST},
};

/// Settings, how they were made, how many bytes are lent for them, and where
/// the noise starts that these are filled with.
#[derive(Clone, Debug)]
pub struct Made {
    pub given: Given,
    pub fault: &'static str,
    pub lent: usize,
    pub start: u16,
}

/// Sound settings, or in 6 of 16 cases some with faults, and in 1 any.
pub fn settings(r: &mut Random) -> Made {
    let mut given = sound(r);
    let mut put = |r: &mut Random| {
        let (fault, put) = r.pick(FAULTS);
        put(r, &mut given);
        fault
    };
    let fault = match r.below(16) {
        0..9 => "none",
        9..13 => put(r),
        13..15 => {
            for _ in 0..r.whole(2, 4) {
                put(r);
            }
            "several"
        }
        _ => {
            given = any(r);
            "any settings"
        }
    };
    Made {
        lent: lent_length(r, &given),
        start: r.bits() as u16,
        given,
        fault,
    }
}

/// Just enough bytes, one fewer, none, fewer or more; refused settings count as
/// the longest.
fn lent_length(r: &mut Random, given: &Given) -> usize {
    let exact = given.written().map_or(ORDER_MOST, |order| order.len());
    let fewer = r.below(exact as u64) as usize;
    let more = exact + 1 + r.below(100) as usize;
    r.pick(&[exact, exact, exact, exact - 1, fewer, 0, more, more, ROOM])
}

// ---- sound settings

/// Settings that are not refused.
pub fn sound(r: &mut Random) -> Given {
    let [w, h] = [side(r), side(r)];
    let [x, y, width, height] = picture(r, [w, h]);
    let [scale, across, down] = game(r);
    Given {
        numbers: [w, h, x, y, width, height, scale, across, down],
        mode: r.pick(&[0, 0, 0, 0, 1, 2, 3, 4, 5, 6, 7]),
        fit: r.pick(&[0, 1, 1, 2]),
        cutouts: cutouts(r),
        saved: saved(r),
    }
}

fn zero(r: &mut Random) -> f32 {
    r.pick(&[0., -0.])
}

/// A number in -8,192 to 8,192, often at its limits or next to nothing.
fn limited(r: &mut Random) -> f32 {
    let (tiny, any) = (signed(r, 0, 0x0100_0000), number(r));
    let limit = r.pick(&[LIMIT, LIMIT.next_down()]);
    let whole = r.pick(&[0., -0., 0.5, 1.]);
    r.pick(&[tiny, limit, -limit, whole, any, any, any, any])
}

/// The same, but not below 0: negative zero is not.
fn size(r: &mut Random) -> f32 {
    let n = limited(r);
    if n < 0. { -n } else { n }
}

/// A side of the screen, often about 1, to which the picture's is raised.
fn side(r: &mut Random) -> f32 {
    let about = r.pick(&[1f32, 1f32.next_down(), 1f32.next_up(), 0.5, 0., -0.]);
    let (size, whole) = (size(r), r.whole(1, 3000) as f32);
    r.pick(&[about, size, whole, whole])
}

/// A number next to another, in the limits.
fn next_to(r: &mut Random, n: f32) -> f32 {
    let next = r.pick(&[n.next_up(), n.next_down()]);
    next.clamp(-LIMIT, LIMIT)
}

/// What an absent picture means, that but for one number, or any.
fn picture(r: &mut Random, [w, h]: [f32; 2]) -> [f32; 4] {
    let mut picture = [zero(r), zero(r), w.max(1.), h.max(1.)];
    match r.below(8) {
        0..4 => (),
        4 => {
            let i = r.below(4) as usize;
            picture[i] = next_to(r, picture[i]);
        }
        5 => {
            let [x, y, width, height] = picture;
            let exchanged = [x, y, height, width];
            let not_raised = [x, y, w, h];
            let moved = [limited(r), y, width, height];
            picture = r.pick(&[exchanged, not_raised, moved]);
        }
        _ => picture = [limited(r), limited(r), size(r), size(r)],
    }
    picture
}

/// The same of the game's size factor and its offset.
fn game(r: &mut Random) -> [f32; 3] {
    let mut game = [1., 0.5, 0.5];
    let i = r.below(3) as usize;
    match r.below(8) {
        0..4 => (),
        4 => game[i] = next_to(r, game[i]),
        5 => game[i] = r.pick(&[0., -0., 0.5, 1., -0.5]),
        _ => game = [0; 3].map(|_| limited(r)),
    }
    game
}

/// 0 to `most` rectangles, often none or as many as can be.
fn list(r: &mut Random, most: i64, mut rect: impl FnMut(&mut Random) -> [f32; 4]) -> Vec<f32> {
    let any = r.whole(0, most);
    let count = r.pick(&[0, 0, 0, 1, 2, most / 2, most - 1, most, any, any]);
    let mut list = Vec::with_capacity(4 * count as usize + 4);
    for _ in 0..count {
        list.extend(rect(r));
    }
    list
}

fn cutouts(r: &mut Random) -> Vec<f32> {
    list(r, 16, |r| [0; 4].map(|_| limited(r)))
}

/// Parts of a screen, any numbers, or parts with one other number.
fn saved(r: &mut Random) -> Vec<f32> {
    list(r, 32, |r| {
        let saved = generate::saved(r);
        let mut rect = [saved.x, saved.y, saved.w, saved.h];
        match r.below(4) {
            0 => rect = [0; 4].map(|_| saved_number(r)),
            1 => rect[r.below(4) as usize] = saved_number(r),
            _ => (),
        }
        rect
    })
}

/// Any numbers and bytes, and lists that may be too long by one.
fn any(r: &mut Random) -> Given {
    let (mode, fit) = (r.bits() as u8, r.bits() as u8);
    let mostly = |r: &mut Random| {
        if r.below(8) == 0 {
            any_number(r)
        } else {
            size(r)
        }
    };
    Given {
        numbers: [0; 9].map(|_| mostly(r)),
        mode: r.pick(&[mode, mode & 7]),
        fit: r.pick(&[fit, 0, 1, 2]),
        cutouts: list(r, 17, |r| [0; 4].map(|_| limited(r))),
        saved: list(r, 33, |r| [0; 4].map(|_| any_number(r))),
    }
}

// ---- faults

type Put = fn(&mut Random, &mut Given);

/// Faults in tag order, after the wrong calls. Some do no harm.
const FAULTS: &[(&str, Put)] = &[
    ("cutouts no whole number of rectangles", |r, given| {
        not_whole(r, &mut given.cutouts);
    }),
    ("saved no whole number of rectangles", |r, given| {
        not_whole(r, &mut given.saved);
    }),
    ("screen", |r, given| {
        given.numbers[r.below(2) as usize] = beyond(r, 0.);
    }),
    ("picture's place", |r, given| {
        given.numbers[2 + r.below(2) as usize] = beyond(r, -LIMIT);
    }),
    ("picture's size", |r, given| {
        given.numbers[4 + r.below(2) as usize] = beyond(r, 0.);
    }),
    ("mode", |r, given| {
        let bits = r.bits() as u8;
        given.mode = r.pick(&[bits, bits, 8, 8 | bits & 7, 128 | bits & 7]);
    }),
    ("fit", |r, given| {
        let bits = r.bits() as u8;
        given.fit = r.pick(&[bits, bits, 3, 4, 255]);
    }),
    ("scale and offset", |r, given| {
        given.numbers[6 + r.below(3) as usize] = beyond(r, -LIMIT);
    }),
    ("too many cutouts", |r, given| {
        let over = if r.below(8) == 0 { r.whole(2, 20) } else { 1 };
        let n = limited(r);
        given.cutouts.resize(4 * (16 + over as usize), n);
    }),
    ("cutout", |r, given| {
        if given.cutouts.is_empty() {
            given.cutouts = vec![limited(r); 4];
        }
        let at = r.below(given.cutouts.len() as u64) as usize;
        given.cutouts[at] = beyond(r, -LIMIT);
    }),
    ("too many saved", |r, given| {
        let over = if r.below(8) == 0 { r.whole(2, 20) } else { 1 };
        let n = saved_number(r);
        given.saved.resize(4 * (32 + over as usize), n);
    }),
];

fn not_whole(r: &mut Random, list: &mut Vec<f32>) {
    let more = r.whole(1, 3) as usize;
    list.resize(list.len() + more, 1.);
}

/// A number outside its limits: the next one, a far one, an infinity, or NaN
/// with any payload and sign.
fn beyond(r: &mut Random, low: f32) -> f32 {
    let nan = signed(r, 0x7F80_0001, 0x7FFF_FFFF);
    let far = signed(r, 0x4600_0001, 0x7F7F_FFFF);
    let next = [LIMIT.next_up(), low.next_down()];
    let infinite = [f32::INFINITY, f32::NEG_INFINITY];
    let low = if low == 0. { -1. } else { low - 1. };
    match r.below(8) {
        0..4 => r.pick(&next),
        4 => r.pick(&infinite),
        5 => r.pick(&[far, low]),
        _ => nan,
    }
}

#[cfg(test)]
mod tests {
    use super::*;
    use player::order::{self, writer::BAD_CALL};
    use std::collections::BTreeMap;

    /// Sound settings are not refused; faults give every refusal, and each
    /// fault alone mostly its own.
    #[test]
    fn sound_settings_are_written_and_faults_refused() {
        let r = &mut Random::new(1);
        let mut answers = BTreeMap::<_, u32>::new();
        for _ in 0..100_000 {
            let given = sound(r);
            let order = given.written().unwrap_or_else(|n| panic!("{n}: {given:?}"));
            assert!(order::read(&order).is_ok());
            let made = settings(r);
            assert!(made.lent <= ROOM);
            let refusal = made.given.write(&mut vec![0; made.lent]).err();
            *answers.entry(refusal.unwrap_or(0)).or_default() += 1;
        }
        assert!(answers.keys().eq(&[0, 5, 6, 7, 8, BAD_CALL]), "{answers:?}");
        assert!(answers.values().all(|n| *n > 1000), "{answers:?}");
        for (i, (fault, put)) in FAULTS.iter().enumerate() {
            let number = [BAD_CALL, BAD_CALL, 6, 6, 6, 5, 5, 6, 7, 6, 7][i];
            let refusals = (0..1000).map(|_| {
                let mut given = sound(r);
                put(r, &mut given);
                given.written().err()
            });
            let own = refusals.filter(|n| *n == Some(number)).count();
            assert!(own > 900, "{fault}: {own}");
        }
    }

    /// Each field is left out and written often, next to its default too.
    #[test]
    fn fields_are_left_out_and_written() {
        let r = &mut Random::new(1);
        let mut counts = [0; 8];
        for _ in 0..20_000 {
            let given = sound(r);
            let order = given.written().expect("sound settings");
            let mut rest = &order[..];
            while let Some((&[tag, high, low], after)) = rest.split_first_chunk() {
                counts[usize::from(tag)] += 1;
                rest = &after[usize::from(u16::from_be_bytes([high, low]))..];
            }
            counts[0] += u32::from(given != given.replaced());
        }
        let often = |n: &u32| (4_000..16_000).contains(n);
        assert_eq!(counts[1], 20_000);
        assert!(counts[2..].iter().all(often), "{counts:?}");
        assert!(counts[0] > 4_000, "{counts:?}");
    }
}
