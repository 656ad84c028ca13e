//! Inner functions that no host's call comes to, against the Rust. Cases named
//! `any` have numbers without limits where the Rust does not panic.
use crate::{
    driver::{Comparison, compare},
    generate::{
        self, LIMIT, any_layout, any_number, any_rect, cameras, layout, number, order_screen,
        preset, rect_on, screen, tablet,
    },
    lent::{self, layout_data, list, preset_data},
    random::Random,
};
use ours::probe;
use player::{
    Preset, Rect,
    access::{self, LayoutData},
};

pub fn comparisons() -> Vec<Comparison> {
    let records = rectangles().into_iter().chain(elements());
    records.chain(defaults()).chain(presets()).collect()
}

fn rectangles() -> Vec<Comparison> {
    let fit = [
        ("fit", in_area as fn(&mut Random) -> (Rect, f32)),
        ("fit any", |r| (any_rect(r), any_number(r))),
    ]
    .map(|(name, in_area)| {
        compare(
            name,
            in_area,
            |(area, aspect)| lent::rect(probe::fit(&list(&[*area]), *aspect)),
            |(area, aspect)| access::fit(*area, *aspect),
        )
    });
    let same = [
        ("same_bounds", pair as fn(&mut Random) -> [Rect; 2]),
        ("same_bounds any", any_pair),
    ]
    .map(|(name, pair)| {
        compare(
            name,
            pair,
            |pair| probe::same_bounds(&list(pair)),
            |&[a, b]| access::same_bounds(a, b),
        )
    });
    fit.into_iter().chain(same).collect()
}

fn elements() -> Vec<Comparison> {
    let kinds = [
        (
            "element",
            "set_element",
            one as fn(&mut Random) -> One,
            rect_on as fn(&mut Random, [f32; 2]) -> Rect,
        ),
        ("element any", "set_element any", any_one, |r, _| {
            any_rect(r)
        }),
    ];
    kinds
        .into_iter()
        .flat_map(|(element, set_element, one, rect)| {
            // The Rust panics where there is no such element.
            let has = |layout: &LayoutData, index| index < access::element_count(layout);
            [
                compare(
                    element,
                    one,
                    |(layout, index)| {
                        let element = probe::element(&lent::layout(layout), *index);
                        element.map(lent::rect)
                    },
                    move |(layout, index)| {
                        has(layout, *index).then(|| access::element(layout, *index))
                    },
                ),
                compare(
                    set_element,
                    move |r| {
                        let (layout, index) = one(r);
                        (layout, index, rect(r, [1000.; 2]))
                    },
                    |(layout, index, to)| {
                        let (layout, to) = (lent::layout(layout), list(&[*to]));
                        let set = probe::set_element(&layout, *index, &to);
                        set.as_ref().map(layout_data)
                    },
                    move |(layout, index, to)| {
                        has(layout, *index).then(|| access::set_element(layout, *index, *to))
                    },
                ),
            ]
        })
        .collect()
}

fn defaults() -> Vec<Comparison> {
    let new = [
        ("new", tablet as fn(&mut Random) -> [f32; 2]),
        ("new any", any_screen),
    ]
    .map(|(name, screen)| {
        compare(
            name,
            screen,
            |&[w, h]| layout_data(&probe::new_layout(w, h)),
            |&[w, h]| access::new(w, h),
        )
    });
    let with_cutouts = [
        ("default_with_cutouts", holes as fn(&mut Random) -> Holes),
        ("default_with_cutouts any", any_holes),
    ]
    .map(|(name, holes)| {
        compare(
            name,
            holes,
            |([w, h], cutouts)| layout_data(&probe::default_with_cutouts(*w, *h, &list(cutouts))),
            |([w, h], cutouts)| access::default_with_cutouts(*w, *h, cutouts),
        )
    });
    new.into_iter().chain(with_cutouts).collect()
}

fn presets() -> Vec<Comparison> {
    let capture = [
        ("capture", captured as fn(&mut Random) -> Captured),
        ("capture any", any_captured),
    ]
    .map(|(name, captured)| {
        compare(
            name,
            captured,
            |(preset, layout, [w, h])| {
                let (preset, layout) = (lent::preset(preset), lent::layout(layout));
                let new = probe::capture(&preset, &layout, *w, *h);
                (preset_data(&new), new.places[new.count..].to_vec())
            },
            // The places after the list are left as they were.
            |(preset, layout, [w, h])| {
                let new = access::capture(preset, layout, *w, *h);
                let places = lent::preset(preset).places[new.elements.len()..].to_vec();
                (new, places)
            },
        )
    });
    let layout = [
        ("layout_with_cutouts", whole as fn(&mut Random) -> Whole),
        ("layout_with_cutouts any", any_whole),
    ]
    .map(|(name, whole)| {
        compare(
            name,
            whole,
            |(preset, [w, h], cutouts)| {
                let (preset, cutouts) = (lent::preset(preset), list(cutouts));
                let layout = probe::layout_with_cutouts(&preset, *w, *h, &cutouts);
                layout.as_ref().map(layout_data)
            },
            |(preset, [w, h], cutouts)| Some(access::layout_with_cutouts(preset, *w, *h, cutouts)),
        )
    });
    capture.into_iter().chain(layout).collect()
}

/// Arguments of `fit`: an area, an aspect.
fn in_area(r: &mut Random) -> (Rect, f32) {
    let screen = screen(r);
    let areas = [rect_on(r, screen), generate::rect(r)];
    let aspects = [4. / 3., 480. / 272., 1., 0.5, number(r)];
    (r.pick(&areas), r.pick(&aspects))
}

/// Two rectangles whose numbers are equal, or apart by 0.01, by the next f32 to
/// it, or by a little less or more.
fn pair(r: &mut Random) -> [Rect; 2] {
    let close = |r: &mut Random| {
        // Of these the difference of two that are 0.01 apart is exact.
        let a = r.pick(&[0., 0.01, -0.01]);
        let a = if r.yes() { a } else { number(r) };
        let at = 0.01f32;
        let apart = r.pick(&[
            0.,
            0.,
            0.,
            0.,
            0.005,
            at,
            at.next_up(),
            at.next_down(),
            0.02,
        ]);
        [a, a + r.pick(&[apart, -apart])]
    };
    let [x, y, w, h] = [0; 4].map(|_| close(r));
    [0, 1].map(|i| Rect::new(x[i], y[i], w[i], h[i]))
}

/// One twice, with a number exchanged at times; or any two.
fn any_pair(r: &mut Random) -> [Rect; 2] {
    let a = r.pick(&[generate::rect, any_rect])(r);
    let (n, other) = (any_number(r), any_rect(r));
    let b = r.pick(&[
        a,
        Rect { x: n, ..a },
        Rect { y: n, ..a },
        Rect { w: n, ..a },
        Rect { h: n, ..a },
        other,
    ]);
    [a, b]
}

/// Arguments of `element`: a layout, an index that it has or one of the next
/// two.
type One = (LayoutData, usize);

fn indexed(r: &mut Random, layout: LayoutData) -> One {
    let count = access::element_count(&layout);
    (layout, r.below(count as u64 + 2) as usize)
}

fn one(r: &mut Random) -> One {
    let screen = screen(r);
    let layout = layout(r, screen);
    indexed(r, layout)
}

fn any_one(r: &mut Random) -> One {
    let layout = any_layout(r);
    indexed(r, layout)
}

fn any_screen(r: &mut Random) -> [f32; 2] {
    let side = r.pick(&[number, any_number]);
    [side(r), side(r)]
}

/// Arguments of `default_with_cutouts`: a screen, cutouts.
type Holes = ([f32; 2], Vec<Rect>);

fn holes(r: &mut Random) -> Holes {
    let screen = tablet(r);
    (screen, cameras(r, screen))
}

fn any_cutouts(r: &mut Random) -> Vec<Rect> {
    let rect = r.pick(&[generate::rect, any_rect]);
    r.list(0, 16, rect)
}

fn any_holes(r: &mut Random) -> Holes {
    (any_screen(r), any_cutouts(r))
}

/// Arguments of `capture`: a preset, a layout, its screen.
type Captured = (Preset, LayoutData, [f32; 2]);

fn captured(r: &mut Random) -> Captured {
    let screen = screen(r);
    (preset(r), layout(r, screen), screen)
}

/// A preset of any numbers, with 0 to 32 saved rectangles.
fn any_preset(r: &mut Random) -> Preset {
    let most = r.pick(&[0, 19, 32, 32]);
    Preset {
        game_scale: any_number(r),
        game_offset: [any_number(r), any_number(r)],
        elements: r.list(0, most, any_rect),
        ..preset(r)
    }
}

fn any_captured(r: &mut Random) -> Captured {
    (any_preset(r), any_layout(r), any_screen(r))
}

/// Arguments of `layout_with_cutouts`: a preset, a screen, cutouts.
type Whole = (Preset, [f32; 2], Vec<Rect>);

fn whole(r: &mut Random) -> Whole {
    let screen = r.pick(&[order_screen, tablet])(r);
    (preset(r), screen, cameras(r, screen))
}

/// A screen in the limits: on an infinite one the Rust panics.
fn any_whole(r: &mut Random) -> Whole {
    let side = |n: f32| n.abs().max(0.).min(LIMIT);
    let screens = [any_screen(r).map(side), order_screen(r)];
    (any_preset(r), r.pick(&screens), any_cutouts(r))
}

#[cfg(test)]
mod tests {
    use super::*;
    use std::collections::BTreeSet;

    /// Every index of every kind of layout is met, and the two after them: a
    /// standard layout has 15 elements, an analog one 19, a psp's 14.
    #[test]
    fn every_index_is_met() {
        let r = &mut Random::new(1);
        for one in [one, any_one] {
            let met = (0..10_000).map(|_| {
                let (layout, index) = one(r);
                (lent::layout(&layout).kind, index)
            });
            let met: BTreeSet<_> = met.collect();
            assert_eq!(met.len(), 17 + 21 + 16);
        }
    }
}
