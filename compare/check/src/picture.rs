//! The functions of input/picture.rs against the Rust. Cases named `any` have
//! numbers without limits where the Rust does not panic.
use crate::{
    driver::{Comparison, compare},
    generate::{
        self, any_layout, any_number, any_rect, cameras, layout, number, rect_on, screen, tablet,
    },
    lent::{self, layout_data, list},
    random::Random,
};
use ours::probe;
use player::{
    Rect,
    access::{self, LayoutData, picture},
};

pub fn comparisons() -> Vec<Comparison> {
    let diamond = [
        ("diamond", well as fn(&mut Random) -> Well),
        ("diamond any", |r| (any_layout(r), any_rect(r))),
    ]
    .map(|(name, well)| {
        compare(
            name,
            well,
            |(layout, well)| placed(layout, &probe::diamond(&list(&[*well])), 4),
            |(layout, well)| picture::diamond(layout, *well),
        )
    });
    let auxiliary = [
        ("auxiliary", keys as fn(&mut Random) -> Keys),
        ("auxiliary any", any_keys),
    ]
    .map(|(name, keys)| {
        compare(
            name,
            keys,
            |(layout, columns, [shoulders, system])| {
                let (from, columns) = (lent::layout(layout), list(columns));
                let keys = probe::auxiliary(&from, &columns, *shoulders, *system);
                placed(layout, &keys, 12)
            },
            |(layout, [left, right], [shoulders, system])| {
                picture::auxiliary(layout, *left, *right, *shoulders, *system)
            },
        )
    });
    let vertical = [
        ("vertical", stacks as fn(&mut Random) -> Stacks),
        ("vertical any", any_stacks),
    ]
    .map(|(name, stacks)| {
        compare(
            name,
            stacks,
            |([w, h], columns, kind)| {
                let stacks = probe::vertical(*w, *h, &list(columns), *kind);
                stacks.as_ref().map(layout_data)
            },
            |([w, h], [left, right], [analog, psp])| {
                picture::vertical(*w, *h, *left, *right, *analog, *psp)
            },
        )
    });
    let horizontal = [
        ("horizontal", row as fn(&mut Random) -> Row),
        ("horizontal any", any_row),
    ]
    .map(|(name, row)| {
        compare(
            name,
            row,
            |([w, h], band, kind)| {
                let row = probe::horizontal(*w, *h, &list(&[*band]), *kind);
                row.as_ref().map(layout_data)
            },
            |([w, h], band, [analog, psp])| picture::horizontal(*w, *h, *band, *analog, *psp),
        )
    });
    let fits = [
        ("fits", packed as fn(&mut Random) -> Packed),
        ("fits caps", packed_caps),
        ("fits any", any_packed),
    ]
    .map(|(name, packed)| {
        compare(
            name,
            packed,
            |(layout, [w, h], game, holes)| {
                let layout = lent::layout(layout);
                probe::fits(&layout, *w, *h, &list(&[*game]), &list(holes))
            },
            |(layout, [w, h], game, holes)| picture::fits(layout, *w, *h, *game, holes),
        )
    });
    let controls = [
        ("controls", around as fn(&mut Random) -> Around),
        ("controls any", any_around),
    ]
    .map(|(name, around)| {
        compare(
            name,
            around,
            |([w, h], game, kind, holes)| {
                let controls = probe::controls(*w, *h, &list(&[*game]), *kind, &list(holes));
                controls.as_ref().map(layout_data)
            },
            |([w, h], game, [analog, psp], holes)| {
                picture::controls(*w, *h, *game, *analog, *psp, holes)
            },
        )
    });
    let list = diamond.into_iter().chain(auxiliary).chain(vertical);
    list.chain(horizontal).chain(fits).chain(controls).collect()
}

/// The layout with the controls of the first labels where an analog one, whose
/// controls are all the labels in order, has them.
fn placed(layout: &LayoutData, from: &probe::Layout, labels: usize) -> LayoutData {
    let (mut layout, from) = (layout.clone(), layout_data(from));
    for control in layout.controls.iter_mut().filter(|c| c.label < labels) {
        control.bounds = from.controls[control.label].bounds;
    }
    layout
}

/// Arguments of `diamond`: a layout, a well.
type Well = (LayoutData, Rect);

fn well(r: &mut Random) -> Well {
    let screen = screen(r);
    let (place, size) = (rect_on(r, screen), r.between(100., 200.));
    let well = r.pick(&[place, Rect::new(place.x, place.y, size, size)]);
    (layout(r, screen), well)
}

/// Arguments of `auxiliary`: a layout, the left and the right column, where
/// shoulders and system keys begin.
type Keys = (LayoutData, [Rect; 2], [f32; 2]);

fn keys(r: &mut Random) -> Keys {
    let screen = screen(r);
    let columns = columns(r, screen);
    (layout(r, screen), columns, [number(r), number(r)])
}

fn any_keys(r: &mut Random) -> Keys {
    let columns = [any_rect(r), any_rect(r)];
    (any_layout(r), columns, [any_number(r), any_number(r)])
}

/// Analog and psp. `layout_in` has no psp that is not analog too.
fn kind(r: &mut Random) -> [bool; 2] {
    [r.yes(), r.yes()]
}

/// One of the numbers, or near it.
fn near(r: &mut Random, numbers: &[f32]) -> f32 {
    r.pick(numbers) + r.pick(&[0., 1., 40.]) * r.between(-1., 1.)
}

/// Two columns: below a picture, beside it, of about the least sizes that
/// `vertical` takes, or any.
fn columns(r: &mut Random, screen: [f32; 2]) -> [Rect; 2] {
    let [w, h] = screen;
    match r.below(4) {
        0 => {
            let y = r.between(0., h);
            [0., w / 2.].map(|x| Rect::new(x, y, w / 2., h - y))
        }
        1 => {
            let [left, right] = [r.between(90., 300.), r.between(90., 300.)];
            [
                Rect::new(0., 0., left, h),
                Rect::new(w - right, 0., right, h),
            ]
        }
        2 => {
            let (width, height) = (near(r, &[124., 176.]), near(r, &[230., 334., 366.]));
            let y = r.pick(&[24., 100.]);
            [0., w - width].map(|x| Rect::new(x, y, width, height))
        }
        _ => [rect_on(r, screen), rect_on(r, screen)],
    }
}

/// Arguments of `vertical`: a screen, the left and the right column, analog,
/// psp.
type Stacks = ([f32; 2], [Rect; 2], [bool; 2]);

fn stacks(r: &mut Random) -> Stacks {
    let screen = tablet(r);
    (screen, columns(r, screen), kind(r))
}

fn any_stacks(r: &mut Random) -> Stacks {
    let rect = r.pick(&[generate::rect, any_rect]);
    let screens = [tablet(r), [any_number(r), any_number(r)]];
    (r.pick(&screens), [rect(r), rect(r)], kind(r))
}

/// Arguments of `horizontal`: a screen, the band, analog, psp.
type Row = ([f32; 2], Rect, [bool; 2]);

/// The screen is often about as narrow, and the band as low, as they may be.
fn row(r: &mut Random) -> Row {
    let [w, h] = tablet(r);
    let widths = [w, w, near(r, &[400., 520., 744.])];
    let heights = [r.between(0., h), near(r, &[184., 236.])];
    let (w, height) = (r.pick(&widths), r.pick(&heights));
    let band = Rect::new(0., h - height, w, height);
    let bands = [band, band, rect_on(r, [w, h])];
    ([w, h], r.pick(&bands), kind(r))
}

fn any_row(r: &mut Random) -> Row {
    let (screen, [band, _], kind) = any_stacks(r);
    (screen, band, kind)
}

/// The game: as large as it can be below the toolbar, or smaller, or any.
fn game(r: &mut Random, screen: [f32; 2]) -> Rect {
    let [w, h] = screen;
    if r.below(4) == 0 {
        return rect_on(r, screen);
    }
    let (top, aspect) = (r.pick(&[0., 18., 40.]), r.pick(&[4. / 3., 480. / 272.]));
    let width = w.min((h - top).max(1.) * aspect) * r.pick(&[1., 1., 0.8]);
    Rect::new((w - width) / 2., top, width, width / aspect)
}

/// Arguments of `fits`: a layout, its screen, the game, holes.
type Packed = (LayoutData, [f32; 2], Rect, Vec<Rect>);

/// Mostly a layout that fits, with some elements moved a little or to an edge,
/// and often with its toolbar anywhere.
fn packed(r: &mut Random) -> Packed {
    let (screen, game, [analog, psp], holes) = around(r);
    let [w, h] = screen;
    let fitting = picture::controls(w, h, game, analog, psp, &[]);
    let mut layout = fitting.unwrap_or_else(|| layout(r, screen));
    if r.yes() {
        let bar = rect_on(r, screen);
        (layout.pause, layout.speed) = (bar, game);
        (layout.playback, layout.mute) = (layout.dpad, Rect::new(-50., -50., 10., 10.));
    }
    let most = r.pick(&[0.02, 5., 40.]);
    for _ in 0..r.pick(&[0, 0, 1, 2]) {
        let index = r.below(access::element_count(&layout) as u64) as usize;
        let e = access::element(&layout, index);
        let (x, y) = (e.x + r.between(-most, most), e.y + r.between(-most, most));
        let beyond = r.pick(&[-0.01, 0., 0.005, 0.02]);
        let [x, y] = match r.below(6) {
            0 => [w - e.w + beyond, e.y],
            1 => [e.x, h - e.h + beyond],
            2 => [-beyond, e.y],
            _ => [x, y],
        };
        layout = access::set_element(&layout, index, Rect::new(x, y, e.w, e.h));
    }
    (layout, screen, game, holes)
}

/// Two face caps whose boxes overlap, and whose centres are almost or just
/// apart enough; all else is far from them.
fn packed_caps(r: &mut Random) -> Packed {
    let mut layout = r.pick(&[access::new, access::analog_default, access::psp])(800., 600.);
    for index in 0..access::element_count(&layout) {
        let place = Rect::new(300. + 60. * index as f32, 300., 40., 40.);
        layout = access::set_element(&layout, index, place);
    }
    let sizes = [r.between(30., 80.), r.between(30., 80.)];
    let size = r.pick(&[sizes, [sizes[0]; 2]]);
    let apart = (size[0] + size[1]) / 2. + 3.99;
    let dx = apart * r.between(0.6, 0.8);
    let dy = (f64::from(apart).powi(2) - f64::from(dx).powi(2)).sqrt() as f32;
    let dy = f32::from_bits(dy.to_bits().wrapping_add_signed(r.whole(-4, 4) as i32));
    // The second's corner, so that its centre is (dx, dy) from the first's.
    let corner = [dx, dy].map(|d| d + size[0] / 2. - size[1] / 2.);
    let caps = [[0., 0., size[0]], [corner[0], corner[1], size[1]]];
    for (index, [x, y, size]) in (1..).zip(caps) {
        layout = access::set_element(&layout, index, Rect::new(x, y, size, size));
    }
    (layout, [2000.; 2], Rect::default(), Vec::new())
}

fn any_packed(r: &mut Random) -> Packed {
    let rect = r.pick(&[generate::rect, any_rect]);
    let (fitting, screen, game, _) = packed(r);
    let mut layout = if r.yes() { fitting } else { any_layout(r) };
    let games = [game, rect(r)];
    let index = r.below(access::element_count(&layout) as u64) as usize;
    layout = access::set_element(&layout, index, rect(r));
    (layout, screen, r.pick(&games), r.list(0, 16, rect))
}

/// Arguments of `controls`: a screen, the game, analog, psp, holes.
type Around = ([f32; 2], Rect, [bool; 2], Vec<Rect>);

fn around(r: &mut Random) -> Around {
    let screen = tablet(r);
    (screen, game(r, screen), kind(r), cameras(r, screen))
}

fn any_around(r: &mut Random) -> Around {
    let rect = r.pick(&[generate::rect, any_rect]);
    let (screen, game, kind, _) = around(r);
    // The Rust asks for a screen of 0 or more.
    let any = [any_number(r), any_number(r)].map(|side| side.abs().max(0.));
    let (screens, games) = ([screen, any], [game, rect(r)]);
    (r.pick(&screens), r.pick(&games), kind, r.list(0, 2, rect))
}

#[cfg(test)]
mod tests {
    use super::*;

    /// `controls` takes each of the three arrangements in a good part of the
    /// cases, and the others both answers.
    #[test]
    fn every_answer_is_met() {
        let r = &mut Random::new(1);
        let mut counts = [0; 8];
        for _ in 0..10_000 {
            let ([w, h], game, [analog, psp], holes) = around(r);
            let bottom = (game.y + game.h).clamp(0., h);
            let band = Rect::new(0., bottom, w, h - bottom);
            let level = picture::horizontal(w, h, band, analog, psp);
            let taken = picture::controls(w, h, game, analog, psp, &holes);
            let stack = taken.as_ref().filter(|_| taken != level);
            let (layout, [fw, fh], fit_game, fit_holes) = packed(r);
            let (caps, [cw, ch], cap_game, _) = packed_caps(r);
            let ([vw, vh], [left, right], [va, vp]) = stacks(r);
            let ([rw, rh], row_band, [ra, rp]) = row(r);
            let met = [
                taken.is_some() && taken == level,
                stack.is_some_and(|l| l.dpad.y >= bottom),
                stack.is_some_and(|l| l.dpad.y < bottom),
                taken.is_none(),
                picture::fits(&layout, fw, fh, fit_game, &fit_holes),
                picture::fits(&caps, cw, ch, cap_game, &[]),
                picture::vertical(vw, vh, left, right, va, vp).is_some(),
                picture::horizontal(rw, rh, row_band, ra, rp).is_some(),
            ];
            for (count, met) in counts.iter_mut().zip(met) {
                *count += u32::from(met);
            }
        }
        let often = |count: &u32| *count > 500 && *count < 9_500;
        assert!(counts.iter().all(often), "{counts:?}");
    }
}
