//! Inner functions against the Rust. Cases named `any` have numbers without
//! limits where the Rust does not panic.
use crate::{
    driver::{Comparison, compare, compare_classes},
    generate::{
        self, CameraRails, Surface, any_layout, any_number, any_rect, beside, layout, number,
        rect_on, screen, stacked, surface, tablet, tie_below,
    },
    halves, hypot,
    lent::{self, layout_data, list},
    masks,
    nearest::nearest_hypot,
    orders::summands,
    random::Random,
};
use ours::probe::{self, ONCE};
use player::{Rect, access, access::LayoutData, sheet};

pub fn comparisons() -> Vec<Comparison> {
    let hypot = compare(
        "hypot ours",
        |r| r.pick(&hypot::KINDS).1(r),
        |&(a, b)| probe::hypot(a, b),
        |&(a, b)| nearest_hypot(a, b),
    );
    let edge = compare_classes(
        "film_edge",
        summands,
        |&[x, w]| probe::edge(x, w),
        |&[x, w]| sheet::edge(x, w) as i32,
        |&[x, w], _| halves::of_edge(x, w),
    );
    let clear = [
        ("clear_picture_aspect", area as fn(&mut Random) -> Area),
        ("clear_picture_aspect any", any_area),
    ]
    .map(|(name, area)| {
        compare(
            name,
            area,
            |(w, h, obstacles, aspect)| {
                let obstacles = list(obstacles);
                lent::rect(probe::clear_picture_aspect(
                    *w, *h, &obstacles, *aspect, ONCE,
                ))
            },
            |(w, h, obstacles, aspect)| access::clear_picture_aspect(*w, *h, obstacles, *aspect),
        )
    });
    let anchor = [
        ("anchor_toolbar", toolbar as fn(&mut Random) -> Toolbar),
        ("anchor_toolbar any", any_toolbar),
    ]
    .map(|(name, toolbar)| {
        compare(
            name,
            toolbar,
            |(layout, [w, h], tops, cutouts)| {
                let (layout, cutouts) = (lent::layout(layout), list(cutouts));
                let anchored = probe::anchor_toolbar(&layout, *w, *h, *tops, &cutouts, ONCE);
                layout_data(&anchored)
            },
            |(layout, [w, h], [reusable, covered], cutouts)| {
                access::anchor_toolbar(layout, *w, *h, *reusable, *covered, cutouts)
            },
        )
    });
    let masks = [
        (
            "mask_near",
            "mask_near ours",
            "mask_near copy",
            touch as fn(&mut Random) -> Touch,
        ),
        (
            "mask_near stacked",
            "mask_near ours, stacked",
            "mask_near copy, stacked",
            stacked_touch,
        ),
        (
            "mask_near any",
            "mask_near ours, any",
            "mask_near copy, any",
            any_touch,
        ),
        (
            "mask_near tie",
            "mask_near ours, tie",
            "mask_near copy, tie",
            tie_touch,
        ),
    ]
    .into_iter()
    .flat_map(|(platform, nearest, copy, touch)| {
        let ours = |(layout, [x, y], previous): &Touch| {
            probe::mask_near(&lent::layout(layout), *x, *y, *previous, ONCE)
        };
        let theirs =
            |(layout, [x, y], previous): &Touch| access::mask_near(layout, *x, *y, *previous);
        let copied = |hypot| {
            move |(layout, touch, previous): &Touch| {
                masks::mask_near(layout, *touch, *previous, hypot)
            }
        };
        [
            // The platform's hypot is not the nearest.
            compare(platform, touch, ours, theirs).may_differ(),
            compare(nearest, touch, ours, copied(nearest_hypot)),
            compare(copy, touch, copied(f32::hypot), theirs),
        ]
    });
    let arranged = [
        ("arranged", screen as fn(&mut Random) -> [f32; 2]),
        ("arranged any", any_screen),
    ]
    .map(|(name, screen)| {
        compare(
            name,
            move |r| (screen(r), r.yes()),
            |&([w, h], compact)| layout_data(&probe::arranged(w, h, compact, ONCE)),
            |&([w, h], compact)| access::arranged(w, h, compact),
        )
    });
    let rails = [
        ("side_rails", rails as fn(&mut Random) -> Rails),
        ("side_rails any", any_rails),
    ]
    .map(|(name, rails)| {
        compare(
            name,
            rails,
            |([w, h], picture_height, cutouts)| {
                let cutouts = list(cutouts);
                layout_data(&probe::side_rails(*w, *h, *picture_height, &cutouts, ONCE))
            },
            |([w, h], picture_height, cutouts)| {
                access::side_rails(*w, *h, *picture_height, cutouts)
            },
        )
    });
    let band = [
        ("controller_band", band as fn(&mut Random) -> Band),
        ("controller_band any", any_band),
    ]
    .map(|(name, band)| {
        compare(
            name,
            band,
            |([w, h], [analog, psp], picture)| {
                let kind = u8::from(*analog) + u8::from(*psp);
                let band = probe::controller_band(*w, *h, kind, &list(&[*picture]), ONCE);
                band.as_ref().map(layout_data)
            },
            |([w, h], [analog, psp], picture)| {
                access::controller_band(*w, *h, *analog, *psp, *picture)
            },
        )
    });
    let avoid = [
        ("avoid_cutouts", holes as fn(&mut Random) -> Holes),
        ("avoid_cutouts stacked", stacked_holes),
        ("avoid_cutouts dense", dense_holes),
    ]
    .map(|(name, holes)| {
        compare(
            name,
            holes,
            |(layout, [w, h], cutouts)| {
                let (layout, cutouts) = (lent::layout(layout), list(cutouts));
                layout_data(&probe::avoid_cutouts(&layout, *w, *h, &cutouts, ONCE))
            },
            |(layout, [w, h], cutouts)| access::avoid_cutouts(layout, *w, *h, cutouts),
        )
    });
    let defaults = [
        ("default_in", surface as fn(&mut Random) -> Surface),
        ("default_in any", any_surface),
    ]
    .map(|(name, surface)| {
        compare(
            name,
            surface,
            |([w, h], cutouts, picture)| {
                let (cutouts, picture) = (list(cutouts), list(&[*picture]));
                layout_data(&probe::default_in(*w, *h, &cutouts, &picture))
            },
            |([w, h], cutouts, picture)| access::default_in(*w, *h, cutouts, *picture),
        )
    });
    let sticks = [
        ("analog_default", tablet as fn(&mut Random) -> [f32; 2]),
        ("analog_default any", any_screen),
    ]
    .map(|(name, screen)| {
        compare(
            name,
            screen,
            |&[w, h]| layout_data(&probe::analog_default(w, h)),
            |&[w, h]| access::analog_default(w, h),
        )
    });
    let psp = [
        ("psp", tablet as fn(&mut Random) -> [f32; 2]),
        ("psp any", any_screen),
    ]
    .map(|(name, screen)| {
        compare(
            name,
            screen,
            |&[w, h]| layout_data(&probe::psp(w, h)),
            |&[w, h]| access::psp(w, h),
        )
    });
    let camera = [
        (
            "analog_camera_rails",
            beside as fn(&mut Random) -> CameraRails,
        ),
        ("analog_camera_rails any", any_beside),
    ]
    .map(|(name, beside)| {
        compare(
            name,
            beside,
            |([w, h], picture, cutouts, psp)| {
                let (picture, cutouts) = (list(&[*picture]), list(cutouts));
                let rails = probe::analog_camera_rails(*w, *h, &picture, &cutouts, *psp);
                rails.as_ref().map(layout_data)
            },
            |([w, h], picture, cutouts, psp)| {
                access::analog_camera_rails(*w, *h, *picture, cutouts, *psp)
            },
        )
    });
    let list = [hypot, edge].into_iter().chain(clear).chain(anchor);
    let list = list.chain(masks).chain(arranged).chain(rails);
    let list = list.chain(band).chain(avoid).chain(defaults);
    list.chain(sticks).chain(psp).chain(camera).collect()
}

/// Arguments of `clear_picture_aspect`.
type Area = (f32, f32, Vec<Rect>, f32);

/// A layout's elements in an area, or rectangles on it that may be stacked.
fn area(r: &mut Random) -> Area {
    let screen = screen(r);
    let [w, h] = screen;
    let obstacles = match r.below(4) {
        0 => layout(r, screen).elements(),
        1 => stacked(r, 19, screen),
        _ => {
            let most = r.pick(&[3, 8, 19]);
            let mut rects = r.list(0, most, |r| rect_on(r, screen));
            // One in the middle, from top to bottom: then the side is searched.
            if r.below(4) == 0 && !rects.is_empty() {
                rects[0] = Rect::new(w / 2. - 5., -1., 10., h + 2.);
            }
            rects
        }
    };
    (w, h, obstacles, r.pick(&[4. / 3., 480. / 272., 1., 0.5]))
}

fn any_area(r: &mut Random) -> Area {
    let side = r.pick(&[number, any_number]);
    let rect = r.pick(&[generate::rect, any_rect]);
    (side(r), side(r), r.list(0, 19, rect), side(r))
}

/// Arguments of `anchor_toolbar`: a layout, a screen, the reusable and the
/// covered top, cutouts.
type Toolbar = (LayoutData, [f32; 2], [f32; 2], Vec<Rect>);

/// Cutouts are often at the top, where the bars are.
fn toolbar(r: &mut Random) -> Toolbar {
    let screen = screen(r);
    let [w, h] = screen;
    let reusable = r.pick(&[0., 0., 24.5, 80.]);
    let covered = r.pick(&[0., 0., 24.5, 80., h / 2., -10.]);
    let cutouts = if r.below(3) == 0 {
        r.list(0, 16, |r| {
            let size = [r.between(-10., w / 4.), r.between(-10., 120.)];
            Rect::new(r.between(0., w), r.between(-90., 60.), size[0], size[1])
        })
    } else {
        cutouts(r, screen)
    };
    (layout(r, screen), screen, [reusable, covered], cutouts)
}

fn any_toolbar(r: &mut Random) -> Toolbar {
    let side = r.pick(&[number, any_number]);
    // The Rust asks for a reusable top of 0 or more.
    let reusable = side(r).abs().max(0.);
    let rect = r.pick(&[generate::rect, any_rect]);
    (
        any_layout(r),
        [side(r), side(r)],
        [reusable, side(r)],
        r.list(0, 16, rect),
    )
}

/// Cutouts anywhere, or on top of each other.
fn cutouts(r: &mut Random, screen: [f32; 2]) -> Vec<Rect> {
    if r.yes() {
        generate::cutouts(r, screen)
    } else {
        stacked(r, 16, screen)
    }
}

/// Arguments of `mask_near`: a layout, a point, the previous mask.
type Touch = (LayoutData, [f32; 2], u16);

fn touch(r: &mut Random) -> Touch {
    let screen = screen(r);
    let layout = layout(r, screen);
    let point = generate::touch(r, &layout);
    (layout, point, r.bits() as u16)
}

/// Elements on top of each other, and points on a grid: distances are often
/// equal, or apart by the 6 of a held button.
fn stacked_touch(r: &mut Random) -> Touch {
    let mut layout = any_layout(r);
    let part = |r: &mut Random| 2. * r.whole(0, 20) as f32;
    for index in 0..access::element_count(&layout) {
        let size = r.pick(&[10., 20., 40.]);
        let rect = Rect::new(part(r), part(r), size, size);
        layout = access::set_element(&layout, index, rect);
    }
    (layout, [part(r), part(r)], r.bits() as u16)
}

fn any_touch(r: &mut Random) -> Touch {
    let layout = any_layout(r);
    let point = generate::touch(r, &layout);
    (layout, point, r.bits() as u16)
}

/// A touch at a tie of hypot.
fn tie_touch(r: &mut Random) -> Touch {
    let w = r.between(50., 400.);
    let x = w / 2. + w * 0.09 * (1. - r.between(0., 2.) / r.pick(&[1e3, 1e4, 1e5, 1e6]));
    let dy = tie_below(w, x);
    // Of such a height that dy can be had exactly.
    let h = (4. * dy).log2().ceil().exp2();
    let layout = LayoutData {
        dpad: Rect::new(0., 0., w, h),
        ..access::new(800., 600.)
    };
    (layout, [x, h / 2. + dy], 0)
}

fn any_screen(r: &mut Random) -> [f32; 2] {
    [any_number(r), any_number(r)]
}

/// Arguments of `side_rails`: a screen, the picture's height, cutouts.
type Rails = ([f32; 2], f32, Vec<Rect>);

fn rails(r: &mut Random) -> Rails {
    let screen = screen(r);
    let height = r.pick(&[screen[1], screen[1] + 24.5, 300.]);
    (screen, height, cutouts(r, screen))
}

fn any_rails(r: &mut Random) -> Rails {
    let side = r.pick(&[number, any_number]);
    let rect = r.pick(&[generate::rect, any_rect]);
    ([side(r), side(r)], side(r), r.list(0, 16, rect))
}

/// Arguments of `controller_band`: a screen, analog, psp, which is analog too,
/// and the picture's area.
type Band = ([f32; 2], [bool; 2], Rect);

fn kind(r: &mut Random) -> [bool; 2] {
    r.pick(&[[false, false], [true, false], [true, true]])
}

/// The screen is mostly large enough.
fn band(r: &mut Random) -> Band {
    let screen = if r.below(4) == 0 {
        screen(r)
    } else {
        let h = r.whole(600, 2000) as f32;
        [h * r.between(0.5, 1.4), h]
    };
    (screen, kind(r), generate::picture(r, screen))
}

fn any_band(r: &mut Random) -> Band {
    let side = r.pick(&[number, any_number]);
    let rect = r.pick(&[generate::rect, any_rect]);
    ([side(r), side(r)], kind(r), rect(r))
}

/// Arguments of `avoid_cutouts`: a layout, its screen, cutouts.
type Holes = (LayoutData, [f32; 2], Vec<Rect>);

/// Cutouts are often on an element.
fn holes(r: &mut Random) -> Holes {
    let screen = screen(r);
    let layout = layout(r, screen);
    let mut cutouts = cutouts(r, screen);
    let elements = layout.elements();
    for cutout in &mut cutouts {
        if r.yes() {
            let e = r.pick(&elements);
            cutout.x = e.x + r.between(-20., e.w);
            cutout.y = e.y + r.between(-20., e.h);
            cutout.w = cutout.w.min(40.);
            cutout.h = cutout.h.min(40.);
        }
    }
    (layout, screen, cutouts)
}

/// Elements and cutouts on a grid, and on top of each other: many moves are
/// equally long.
fn stacked_holes(r: &mut Random) -> Holes {
    let screen = [400., 400.];
    let mut layout = any_layout(r);
    let part = |r: &mut Random| 16. * r.whole(0, 24) as f32;
    for index in 0..access::element_count(&layout) {
        let size = r.pick(&[16., 32., 48.]);
        let rect = Rect::new(part(r), part(r), size, size);
        layout = access::set_element(&layout, index, rect);
    }
    let cutouts = r.list(0, 16, |r| {
        let size: f32 = r.pick(&[-8., 0., 8., 16., 24.]);
        Rect::new(part(r), part(r), size.abs(), size)
    });
    (layout, screen, cutouts)
}

/// The four face caps close together and 14 to 16 holes on top of them, with
/// room on all sides: mostly over 200 candidate moves, many equally long.
fn dense_holes(r: &mut Random) -> Holes {
    let screen = [1600., 1600.];
    let mut layout = any_layout(r);
    for index in 0..access::element_count(&layout) {
        let rect = if access::action_elements(&layout).contains(&index) {
            Rect::new(
                784. + 4. * r.whole(0, 8) as f32,
                784. + 4. * r.whole(0, 8) as f32,
                64.,
                64.,
            )
        } else {
            Rect::new(100. * index as f32, r.pick(&[0., 400., 1500.]), 48., 48.)
        };
        layout = access::set_element(&layout, index, rect);
    }
    let cutouts = r.list(14, 16, |r| {
        let size = r.pick(&[8., 16., 16., 32.]);
        Rect::new(
            816. + 4. * r.whole(0, 7) as f32,
            816. + 4. * r.whole(0, 7) as f32,
            size,
            size,
        )
    });
    (layout, screen, cutouts)
}

fn any_surface(r: &mut Random) -> Surface {
    let (screen, _, cutouts) = any_rails(r);
    let rect = r.pick(&[generate::rect, any_rect]);
    (screen, cutouts, rect(r))
}

fn any_beside(r: &mut Random) -> CameraRails {
    let (screen, cutouts, picture) = any_surface(r);
    (screen, picture, cutouts, r.yes())
}

#[cfg(test)]
mod tests {
    use super::*;

    /// The dense cases have over 200 candidate moves, and the group moves.
    #[test]
    fn dense_cases_are_dense() {
        let r = &mut Random::new(1);
        let (mut dense, mut moved) = (0, 0);
        for _ in 0..1_000 {
            let (layout, [w, h], cutouts) = dense_holes(r);
            let caps = access::action_elements(&layout);
            let meetings = caps.iter().map(|i| {
                let cap = access::element(&layout, *i);
                cutouts
                    .iter()
                    .filter(|c| access::overlaps(cap, **c))
                    .count()
            });
            dense += u32::from(4 * meetings.sum::<usize>() > 200);
            moved += u32::from(access::avoid_cutouts(&layout, w, h, &cutouts) != layout);
        }
        assert!(dense > 800 && moved > 800, "{dense} {moved}");
    }

    /// Each default arrangement is met, and screens too small for one.
    #[test]
    fn defaults_are_met() {
        let r = &mut Random::new(1);
        let mut counts = [0; 7];
        for _ in 0..10_000 {
            let ([w, h], cutouts, area) = surface(r);
            let default = access::default_in(w, h, &cutouts, area);
            let is = |l: LayoutData| l.dpad == default.dpad && l.controls == default.controls;
            let [aw, ah] = tablet(r);
            let full = Rect::new(0., 0., aw, ah);
            let band = access::controller_band(aw, ah, true, false, full);
            let banded = band == Some(access::analog_default(aw, ah));
            let ([cw, ch], picture, cutouts_beside, psp) = beside(r);
            let beside = access::analog_camera_rails(cw, ch, picture, &cutouts_beside, psp);
            let met = [
                is(access::arranged(w, h, false)),
                is(access::arranged(w, h, true)),
                is(access::side_rails(w, h, area.h, &cutouts)),
                access::controller_band(w, h, false, false, area).is_some_and(is),
                banded,
                aw < 360. || ah < 360.,
                beside.is_some(),
            ];
            for (count, met) in counts.iter_mut().zip(met) {
                *count += u32::from(met);
            }
        }
        assert!(counts.iter().all(|count| *count > 300), "{counts:?}");
    }

    /// Each function has work to do in a good part of the cases.
    #[test]
    fn cases_are_not_trivial() {
        let r = &mut Random::new(1);
        let mut counts = [0; 8];
        for _ in 0..10_000 {
            let (w, h, obstacles, aspect) = area(r);
            let clear = access::clear_picture_aspect(w, h, &obstacles, aspect);
            let (bar, [tw, th], [reusable, covered], holes_above) = toolbar(r);
            let free = access::anchor_toolbar(&bar, tw, th, reusable, 0., &[]);
            let anchored = access::anchor_toolbar(&bar, tw, th, reusable, covered, &holes_above);
            let (pad, [x, y], previous) = touch(r);
            let (stack, [u, v], held) = stacked_touch(r);
            let ([bw, bh], [analog, psp], picture) = band(r);
            let (layout, [lw, lh], cutouts) = holes(r);
            let (grid, [gw, gh], grid_cutouts) = stacked_holes(r);
            let met = [
                clear.w > 0. && clear.w < w,
                clear.w > 0. && (clear.x + clear.w / 2. - w / 2.).abs() > 1.,
                anchored != free,
                access::mask_near(&pad, x, y, previous) != 0,
                access::mask_near(&stack, u, v, held) != 0,
                access::controller_band(bw, bh, analog, psp, picture).is_some(),
                access::avoid_cutouts(&layout, lw, lh, &cutouts) != layout,
                access::avoid_cutouts(&grid, gw, gh, &grid_cutouts).controls != grid.controls,
            ];
            for (count, met) in counts.iter_mut().zip(met) {
                *count += u32::from(met);
            }
        }
        assert!(counts.iter().all(|count| *count > 500), "{counts:?}");
    }
}
