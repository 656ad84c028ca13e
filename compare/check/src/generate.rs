//! Generated arguments. Those named `any_` have no limits; the others keep
//! the limits that document 01 sets for orders.
use crate::random::Random;
use player::access::{self, LayoutData, native::Layout};
use player::{PictureFit, Preset, Rect};

/// The greatest number in an order, and least with a minus.
pub const LIMIT: f32 = 8192.;

/// A number in -8,192 to 8,192, of a form that layouts have: whole, in
/// quarters, with all its digits, of small size, or special.
pub fn number(r: &mut Random) -> f32 {
    match r.below(8) {
        0 | 1 => r.whole(-8192, 8192) as f32,
        2 => r.whole(-4 * 8192, 4 * 8192) as f32 / 4.,
        3 | 4 => r.between(-1000., 1000.),
        5 => r.between(-LIMIT, LIMIT),
        6 => r.between(-2., 2.) * r.pick(&[1., 0.01, 1e-6, 1e-30, 1e-42]),
        _ => r.pick(&[0., -0., 1., 0.5, 0.01, LIMIT, -LIMIT, f32::MIN_POSITIVE]),
    }
}

/// One of the usual numbers, or any in the limits.
fn usual(r: &mut Random, usual: &[f32]) -> f32 {
    if r.yes() { r.pick(usual) } else { number(r) }
}

/// Any f32: infinities, NaN, subnormal and huge numbers are frequent.
pub fn any_number(r: &mut Random) -> f32 {
    match r.below(8) {
        0 | 1 => number(r),
        2 => signed(r, 0, 0x0100_0000),
        3 => signed(r, 0x7E00_0000, 0x7F80_0000),
        4 => r.pick(&[
            f32::NAN,
            f32::INFINITY,
            f32::NEG_INFINITY,
            f32::MAX,
            f32::MIN,
        ]),
        _ => f32::from_bits(r.bits() as u32),
    }
}

/// A number of either sign, with bits from `low` to `high` but for the sign.
pub fn signed(r: &mut Random, low: u32, high: u32) -> f32 {
    let size = r.whole(low.into(), high.into()) as u32;
    f32::from_bits(size | (r.below(2) as u32) << 31)
}

/// A rectangle with all four numbers in the limits, and sizes of any sign.
pub fn rect(r: &mut Random) -> Rect {
    Rect::new(number(r), number(r), number(r), number(r))
}

pub fn any_rect(r: &mut Random) -> Rect {
    Rect::new(any_number(r), any_number(r), any_number(r), any_number(r))
}

/// A rectangle that mostly lies on a screen, and seldom anywhere.
pub fn rect_on(r: &mut Random, [w, h]: [f32; 2]) -> Rect {
    if r.below(16) == 0 {
        return rect(r);
    }
    let width = r.between(0., w) * r.pick(&[1., 0.5, 0.1]);
    let height = r.between(0., h) * r.pick(&[1., 0.5, 0.1]);
    let place = Rect::new(r.between(-width, w), r.between(-height, h), width, height);
    let place = Rect::new(place.x.max(-LIMIT), place.y.max(-LIMIT), place.w, place.h);
    match r.below(4) {
        // On an edge, and in whole numbers.
        0 => Rect::new(r.pick(&[0., w - width]), place.y, width, height),
        1 => Rect::new(
            place.x.round(),
            place.y.round(),
            width.round(),
            height.round(),
        ),
        _ => place,
    }
}

/// A screen of 1 to 8,192 each way: square, wide, narrow, usual, or near the
/// sizes at which arrangements change.
pub fn screen(r: &mut Random) -> [f32; 2] {
    let side = |r: &mut Random| match r.below(4) {
        0 => r.between(1., LIMIT),
        1 => r.whole(1, 8192) as f32,
        _ => r.whole(200, 2000) as f32,
    };
    let [w, h] = match r.below(8) {
        0 => [side(r); 2],
        1 | 2 => {
            let h = side(r);
            [h * r.between(1., 3.), h]
        }
        3 => {
            let h = side(r);
            [h / r.between(1., 3.), h]
        }
        4 => r.pick(&[
            [1000., 1000.],
            [1280., 800.],
            [800., 600.],
            [844., 390.],
            [390., 844.],
        ]),
        5 => {
            let edge = r.pick(&[304., 320., 336., 360., 600., 800.]);
            [side(r), edge + r.between(-1., 1.)]
        }
        6 => {
            let edge = r.pick(&[320., 360., 800., 1080.]);
            [edge + r.between(-1., 1.), side(r)]
        }
        _ => [side(r), side(r)],
    };
    [w.clamp(1., LIMIT), h.clamp(1., LIMIT)]
}

/// A screen that is mostly of a tablet's size, square, narrow or wide, or of
/// the shape between the two: large enough for most arrangements.
pub fn tablet(r: &mut Random) -> [f32; 2] {
    let h = r.between(300., 1600.);
    let h = r.pick(&[h, h.round()]);
    match r.below(8) {
        0 => screen(r),
        1 => r.pick(&[
            [1280., 800.],
            [800., 1280.],
            [1024., 768.],
            [768., 1024.],
            [1180., 820.],
            [712., 712.],
        ]),
        2 => [h, h],
        3 => [h * 1.35, h],
        _ => [h * r.between(0.5, 2.5), h],
    }
}

/// A screen as an order has it: seldom below 1, to which layouts raise it.
pub fn order_screen(r: &mut Random) -> [f32; 2] {
    let screen = screen(r);
    screen.map(|side| {
        if r.below(16) == 0 {
            r.pick(&[0., 0.5])
        } else {
            side
        }
    })
}

/// 0 to 16 cutouts of any size, often none. Some have no width or height.
pub fn cutouts(r: &mut Random, screen: [f32; 2]) -> Vec<Rect> {
    let most = r.pick(&[0, 0, 1, 2, 4, 16]);
    r.list(0, most, |r| {
        let cutout = rect_on(r, screen);
        match r.below(8) {
            0 => Rect {
                w: r.pick(&[0., -cutout.w]),
                ..cutout
            },
            1 => Rect {
                h: r.pick(&[0., -cutout.h]),
                ..cutout
            },
            _ => cutout,
        }
    })
}

/// Cutouts of a camera's size, mostly on an edge, or any.
pub fn cameras(r: &mut Random, screen: [f32; 2]) -> Vec<Rect> {
    if r.below(3) == 0 {
        return cutouts(r, screen);
    }
    let [w, h] = screen;
    let most = r.pick(&[0, 1, 2, 4, 16]);
    r.list(0, most, |r| {
        let [x, y] = [r.between(0., w), r.between(0., h)];
        let (x, y) = (r.pick(&[0., w - 30., x]), r.pick(&[0., h - 30., y, y]));
        let [width, height] = [r.between(-5., 45.), r.between(-5., 45.)];
        // At the top, 32 ends just where the rails beside a camera begin.
        Rect::new(x, y, width, r.pick(&[height, height, 32.]))
    })
}

/// The picture's area: the screen, the screen raised at its top, or any.
pub fn picture(r: &mut Random, [w, h]: [f32; 2]) -> Rect {
    match r.below(4) {
        0 | 1 => Rect::new(0., 0., w, h),
        2 => {
            let top = r.between(0., 80.);
            Rect::new(0., -top, w, (h + top).min(LIMIT))
        }
        _ => {
            let any = rect_on(r, [w, h]);
            Rect::new(any.x, any.y, any.w.abs(), any.h.abs())
        }
    }
}

/// Arguments of `default_in`: a screen, cutouts, the picture's area.
pub type Surface = ([f32; 2], Vec<Rect>, Rect);

pub fn surface(r: &mut Random) -> Surface {
    let screen = tablet(r);
    (screen, cameras(r, screen), picture(r, screen))
}

/// Arguments of `analog_camera_rails`: a screen, the picture's area, cutouts,
/// psp.
pub type CameraRails = ([f32; 2], Rect, Vec<Rect>, bool);

/// Mostly a picture of whole numbers with about enough beside it for the rails,
/// on a screen that is about wide and high enough.
pub fn beside(r: &mut Random) -> CameraRails {
    let (screen, cutouts, picture) = surface(r);
    let psp = r.yes();
    if r.below(4) == 0 {
        return (screen, picture, cutouts, psp);
    }
    let (across, down) = if psp { (30., 17.) } else { (4., 3.) };
    let units = (r.between(0., 1500.) / across).round();
    let rails = [184., r.between(170., 400.), r.between(170., 400.)];
    let w = units * across + 2. * r.pick(&rails);
    let heights = [360., w / r.between(1.3, 2.5), w / r.between(1.3, 2.5)];
    let screen = [w, r.pick(&heights)];
    let picture = Rect::new(picture.x, picture.y, picture.w, units * down);
    (screen, picture, cameras(r, screen), psp)
}

/// A saved rectangle: parts of a screen, or any four f32.
pub fn saved(r: &mut Random) -> Rect {
    if r.below(8) == 0 {
        return any_rect(r);
    }
    let size = r.pick(&[1., 0.3, 0.1]);
    let part = |r: &mut Random| r.between(0., 1.);
    Rect::new(part(r), part(r), part(r) * size, part(r) * size)
}

/// A preset with 0 to 32 saved rectangles, often none, so that all
/// arrangements are met.
pub fn preset(r: &mut Random) -> Preset {
    let whole = r.yes();
    let most = r.pick(&[0, 0, 0, 1, 19, 32]);
    Preset {
        psp: r.below(4) == 0,
        analog: r.yes(),
        allow_overlap: r.below(4) == 0,
        picture_fit: r.pick(&[None, Some(PictureFit::Maximum), Some(PictureFit::KeepClear)]),
        game_scale: if whole {
            1.
        } else {
            usual(r, &[0.25, 0.5, 1.])
        },
        game_offset: if whole {
            [0.5; 2]
        } else {
            [0; 2].map(|_| usual(r, &[0., 0.5, 1.]))
        },
        elements: r.list(0, most, saved),
        ..Preset::default()
    }
}

/// Up to `most` rectangles on a coarse grid, so that edges and whole
/// rectangles coincide, and sizes may be zero or negative.
pub fn stacked(r: &mut Random, most: i64, [w, h]: [f32; 2]) -> Vec<Rect> {
    let part = |r: &mut Random, low, of: f32| r.whole(low, 8) as f32 * (of / 8.).round();
    r.list(0, most, |r| {
        let (x, y) = (part(r, 0, w), part(r, 0, h));
        Rect::new(x, y, part(r, -1, w / 2.), part(r, -1, h / 2.))
    })
}

/// A layout of any kind, each rectangle of which has no limits.
pub fn any_layout(r: &mut Random) -> LayoutData {
    let mut layout = r.pick(&[access::new, access::analog_default, access::psp])(800., 600.);
    for index in 0..access::element_count(&layout) {
        layout = access::set_element(&layout, index, any_rect(r));
    }
    LayoutData {
        game: any_rect(r),
        ..layout
    }
}

/// A layout for a screen: one that the Rust arranges, with some elements
/// moved.
pub fn layout(r: &mut Random, screen: [f32; 2]) -> LayoutData {
    let [w, h] = screen;
    let mut layout = match r.below(4) {
        0 => access::arranged(w, h, r.yes()),
        1 => access::analog_default(w, h),
        2 => access::psp(w, h),
        _ => {
            let (cutouts, area) = (cutouts(r, screen), picture(r, screen));
            access::layout_in(&preset(r), w, h, &cutouts, area)
        }
    };
    for _ in 0..r.pick(&[0, 0, 1, 4]) {
        let index = r.below(access::element_count(&layout) as u64) as usize;
        layout = access::set_element(&layout, index, rect_on(r, screen));
    }
    layout
}

/// A point near an element of the layout, or anywhere.
pub fn touch(r: &mut Random, layout: &LayoutData) -> [f32; 2] {
    if r.below(8) == 0 {
        return [any_number(r), any_number(r)];
    }
    let e = r.pick(&layout.elements());
    [(e.x, e.w), (e.y, e.h)].map(|(start, size)| start + size * r.between(-0.2, 1.2))
}

/// A point on an edge of an element, of its margin or of a d-pad's neutral
/// centre, on a border between sectors, or next to one of these; or any.
pub fn edge_touch(r: &mut Random, layout: &Layout) -> [f32; 2] {
    let count = layout.element_count();
    let e = match r.below(count as u64 + 1) as usize {
        index if index < count => layout.element(index),
        _ => layout.game,
    };
    let [margin, neutral] = [(e.w.min(e.h) * 0.15).min(10.), e.w * 0.09];
    let [mut x, mut y] = [(e.x, e.w), (e.y, e.h)].map(|(start, size)| {
        let (end, middle) = (start + size, start + size / 2.);
        let part = start + size * r.between(-0.2, 1.2);
        let edges = [start, end, start - margin, end + margin];
        let inner = [middle, middle - neutral, middle + neutral, part];
        let at = if r.yes() {
            r.pick(&edges)
        } else {
            r.pick(&inner)
        };
        r.pick(&[at, at, at.next_up(), at.next_down()])
    });
    match r.below(16) {
        0 => y = e.y + e.h / 2. + (x - e.x - e.w / 2.) * (std::f32::consts::SQRT_2 - 1.),
        1 => x = e.x + e.w / 2. + (y - e.y - e.h / 2.) * (std::f32::consts::SQRT_2 - 1.),
        2 => x = any_number(r),
        3 => y = any_number(r),
        _ => (),
    }
    [x, y]
}

/// How far below the centre of a d-pad of width `w` a touch at `x` lies whose
/// distance from it is very near the midpoint between the neutral centre's
/// radius and the next f32: there the platform's hypot is sometimes not the
/// nearest.
pub fn tie_below(w: f32, x: f32) -> f32 {
    let radius = w * 0.09;
    let middle = (f64::from(radius) + f64::from(radius.next_up())) / 2.;
    let dx = f64::from(x - w / 2.);
    (middle * middle - dx * dx).max(0.).sqrt() as f32
}

/// Whole numbers for `safe_content` and `safe_edges`: in -8,192 to 8,192, and
/// seldom beyond.
pub fn integers<const N: usize>(r: &mut Random) -> [i32; N] {
    std::array::from_fn(|_| match r.below(64) {
        0 => r.pick(&[-8193, -8192, 8192, 8193, i32::MIN, i32::MAX]),
        1 => r.bits() as i32,
        2..16 => r.whole(-8192, 8192) as i32,
        _ => r.whole(-10, 2000) as i32,
    })
}

#[cfg(test)]
mod tests {
    use super::*;

    fn in_limits(numbers: &[f32]) -> bool {
        numbers.iter().all(|n| n.abs() <= LIMIT)
    }
    fn rect_in_limits(r: &Rect) -> bool {
        in_limits(&[r.x, r.y, r.w, r.h])
    }

    #[test]
    fn generated_arguments_keep_the_limits_and_the_rust_accepts_them() {
        let r = &mut Random::new(1);
        for _ in 0..50_000 {
            let screen = screen(r);
            let [w, h] = screen;
            assert!(w >= 1. && h >= 1. && in_limits(&screen));
            let cutouts = cutouts(r, screen);
            assert!(
                cutouts.len() <= 16 && cutouts.iter().all(rect_in_limits),
                "{cutouts:?}"
            );
            let area = picture(r, screen);
            assert!(
                area.w >= 0. && area.h >= 0. && rect_in_limits(&area),
                "{area:?}"
            );
            let preset = preset(r);
            let [across, down] = preset.game_offset;
            assert!(preset.elements.len() <= 32);
            assert!(in_limits(&[preset.game_scale, across, down]));
            access::layout_in(&preset, w, h, &cutouts, area);
            let layout = layout(r, screen);
            let [x, y] = touch(r, &layout);
            access::mask_near(&layout, x, y, r.bits() as u16);
        }
    }

    /// Counts the cases in which each arrangement or move is met.
    #[test]
    fn every_arrangement_is_met() {
        let r = &mut Random::new(1);
        let mut counts = [("", 0); 13];
        for _ in 0..50_000 {
            let screen = screen(r);
            let [w, h] = screen;
            let (cutouts, area, preset) = (cutouts(r, screen), picture(r, screen), preset(r));
            let (analog, psp) = (preset.analog || preset.psp, preset.psp);
            let placed = |l| access::place_game_in(&l, area, false, 1., [0.5; 2]);
            let default = access::default_in(w, h, &cutouts, area);
            let is_default =
                |l: LayoutData| l.dpad == default.dpad && l.controls == default.controls;
            let sticks = placed(access::analog_default(w, h));
            let game = access::place_game_in(&sticks, area, true, 1., [0.5; 2]).game;
            let bottom = (game.y + game.h).clamp(0., h);
            let band = Rect::new(0., bottom, w, h - bottom);
            let level = access::picture::horizontal(w, h, band, analog, psp);
            let controls = access::picture::controls(w, h, game, analog, psp, &cutouts);
            let stacked = controls.as_ref().filter(|_| controls != level);
            let toolbar = access::anchor_toolbar(&sticks, w, h, 0., 0., &cutouts);
            let moved = placed(layout(r, screen)).game;
            let properties = [
                ("rails", is_default(access::arranged(w, h, false))),
                ("dock", is_default(access::arranged(w, h, true))),
                (
                    "side rails",
                    is_default(access::side_rails(w, h, area.h, &cutouts)),
                ),
                (
                    "band",
                    access::controller_band(w, h, analog, psp, area).is_some(),
                ),
                (
                    "camera rails",
                    access::analog_camera_rails(w, h, area, &cutouts, psp).is_some(),
                ),
                ("level controls", controls.is_some() && controls == level),
                (
                    "controls below",
                    stacked.is_some_and(|l| l.dpad.y >= bottom),
                ),
                (
                    "controls beside",
                    stacked.is_some_and(|l| l.dpad.y < bottom),
                ),
                (
                    "cutout pass",
                    access::avoid_cutouts(&sticks, w, h, &cutouts) != sticks,
                ),
                (
                    "bottom row",
                    access::fit_landscape_controls(&sticks, w, h, area, 4. / 3.) != sticks,
                ),
                ("toolbar beside", toolbar.speed.x != sticks.speed.x),
                ("toolbar below", toolbar.speed.y != sticks.speed.y),
                (
                    "side search",
                    (moved.x + moved.w / 2. - area.x - area.w / 2.).abs() > 1.,
                ),
            ];
            for (count, (name, met)) in counts.iter_mut().zip(properties) {
                *count = (name, count.1 + u32::from(met));
            }
        }
        assert!(counts.iter().all(|(_, n)| *n > 100), "{counts:?}");
    }
}
