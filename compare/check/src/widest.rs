//! Demand 3 measured, in exact arithmetic, of a layout's bytes: no rival of
//! the game is more than 1/16 wider than it, and the game meets no element by
//! more both across and down. The terms are document 01's, in its paragraph
//! "For the widest picture". The widest rival is found by trying every pair of
//! levels that it can lie between, not by the search of the source.
use player::{
    PictureFit, Preset, Rect,
    exact::Exact,
    order::{self, Settings},
};

/// A rectangle by its edges.
#[derive(Clone, Copy, Debug)]
struct Edges {
    left: Exact,
    right: Exact,
    top: Exact,
    bottom: Exact,
}

impl Edges {
    /// None if its numbers are not finite, or its size is negative.
    fn of(r: Rect) -> Option<Self> {
        let [x, y, w, h] = [r.x, r.y, r.w, r.h].map(Exact::of);
        let edges = Self {
            left: x?,
            right: x? + w?,
            top: y?,
            bottom: y? + h?,
        };
        (r.w >= 0. && r.h >= 0.).then_some(edges)
    }
    fn width(&self) -> Exact {
        self.right - self.left
    }
}

/// The shape of a picture: its width to its height.
#[derive(Clone, Copy)]
struct Shape {
    w: i128,
    h: i128,
}

/// The width, times the shape's height, of the widest rectangle of a shape
/// that is inside the area and meets no element; 0 if there is none. How much
/// is free across, beside the elements that reach between two levels, is for
/// `across` to say.
///
/// A rival lies between two levels: the lowest of the area's top and the
/// bottoms that are not below the rival's top, and the highest of the area's
/// bottom and the tops that are not above its bottom. An element that reaches
/// between these is neither above nor below the rival, so it is beside it.
/// And whatever is free beside them is inside the area and meets no element.
fn widest(
    area: &Edges,
    elements: &[Edges],
    shape: Shape,
    across: impl Fn(&mut dyn Iterator<Item = &Edges>) -> Exact,
) -> Exact {
    let tops = elements.iter().map(|e| e.bottom).chain([area.top]);
    let mut best = Exact::ZERO;
    for top in tops.filter(|top| *top >= area.top) {
        let bottoms = elements.iter().map(|e| e.top).chain([area.bottom]);
        for bottom in bottoms.filter(|bottom| *bottom <= area.bottom) {
            let down = (bottom - top).times(shape.w);
            // This is also the case if top is not above bottom.
            if down <= best {
                continue;
            }
            let reaches = |e: &&Edges| e.top < bottom && top < e.bottom;
            let across = across(&mut elements.iter().filter(reaches)).times(shape.h);
            best = best.max(across.min(down));
        }
    }
    best
}

/// As `widest`, of rectangles whose middle is the area's, left to right.
fn widest_centred(area: &Edges, elements: &[Edges], shape: Shape) -> Exact {
    let middle = area.left + area.right;
    widest(area, elements, shape, |beside| {
        beside.fold(area.width(), |width, e| {
            let left_of_it = e.left.times(2) - middle;
            let right_of_it = middle - e.right.times(2);
            width.min(left_of_it.max(right_of_it))
        })
    })
}

/// As `widest`, of rectangles anywhere. The elements come from left to right.
fn widest_anywhere(area: &Edges, elements: &[Edges], shape: Shape) -> Exact {
    widest(area, elements, shape, |beside| {
        let (mut free, mut from) = (Exact::ZERO, area.left);
        for e in beside {
            free = free.max(e.left.min(area.right) - from);
            from = from.max(e.right);
        }
        free.max(area.right - from)
    })
}

/// The lesser of how far two rectangles meet across and down.
fn meeting(a: &Edges, b: &Edges) -> Exact {
    let across = a.right.min(b.right) - a.left.max(b.left);
    let down = a.bottom.min(b.bottom) - a.top.max(b.top);
    across.min(down)
}

/// The width with which the centred search of `clear_picture_aspect` ends.
/// This decides whether rivals are centred, and so it is an f32.
fn centred_width(area: Rect, elements: &[Rect], aspect: f32) -> f32 {
    let in_area = elements.iter().filter(|e| e.overlaps(area));
    let in_area = in_area.map(|e| Rect::new(e.x - area.x, e.y - area.y, e.w, e.h));
    let obstacles: Vec<_> = in_area.collect();
    let width_at = |y: f32| {
        let below = obstacles.iter().filter(|e| e.y + e.h > y + 0.01);
        below.fold(area.w.min((area.h - y) * aspect).max(0.), |width, e| {
            let middle = area.w / 2.;
            let beside = (middle - e.x - e.w).max(e.x - middle).max(0.) * 2.;
            let above = (e.y - y).max(0.) * aspect;
            width.min(beside.max(above))
        })
    };
    let levels = obstacles.iter().map(|e| e.y + e.h).chain([0.]);
    let levels = levels.filter(|y| *y >= 0. && *y <= area.h);
    levels.map(width_at).fold(0., f32::max)
}

/// What was measured of a layout.
#[derive(Clone, Copy, Debug, PartialEq)]
pub struct Measured {
    /// The width with which the centred search ended: where that is 0, rivals
    /// are anywhere, else it is the game's width.
    pub found: f32,
    /// The game's width.
    pub width: f32,
    /// How much wider than the game the widest rival is, about.
    pub wider: f64,
    /// The most by which the game meets an element both across and down,
    /// about; negative if it meets none.
    pub meets: f64,
    /// Whether demand 3 holds, exactly.
    pub holds: bool,
}

/// Whether demand 3 speaks of the layouts of a preset.
pub fn kept_clear(preset: &Preset) -> bool {
    let clear = preset.picture_fit() == PictureFit::KeepClear;
    clear && !preset.allow_overlap && preset.game_scale == 1.
}

/// The game and the elements of a layout's bytes, its tags 1 and 2.
fn rects(layout: &[u8]) -> Option<(Rect, Vec<Rect>)> {
    let (game, rest) = layout.strip_prefix(&[1, 0, 16])?.split_at_checked(16)?;
    let (&[2, high, low], rest) = rest.split_first_chunk()? else {
        return None;
    };
    let length = usize::from(u16::from_be_bytes([high, low]));
    let rects = |bytes| order::rects(bytes).collect::<Vec<_>>();
    Some((rects(game)[0], rects(rest.get(..length)?)))
}

/// Measures the layout that was written for settings of which demand 3 speaks;
/// none if it is no layout or holds numbers that no layout has.
pub fn measure(settings: &Settings, layout: &[u8]) -> Option<Measured> {
    let (w, h) = if settings.preset.psp {
        (480, 272)
    } else {
        (4, 3)
    };
    let (game, elements) = rects(layout)?;
    let width = game.w;
    let found = centred_width(settings.area(), &elements, w as f32 / h as f32);
    let (area, game) = (Edges::of(settings.area())?, Edges::of(game)?);
    let elements: Option<Vec<_>> = elements.into_iter().map(Edges::of).collect();
    let mut elements = elements?;
    elements.sort_by_key(|e| e.left);
    let shape = Shape { w, h };
    let rival = if found == 0. {
        widest_anywhere(&area, &elements, shape)
    } else {
        widest_centred(&area, &elements, shape)
    };
    let slack = Exact::of(1. / 16.)?;
    let wider = rival - game.width().times(h);
    let meets = elements.iter().map(|e| meeting(&game, e)).max()?;
    Some(Measured {
        found,
        width,
        wider: wider.about() / h as f64,
        meets: meets.about(),
        holds: wider <= slack.times(h) && meets <= slack,
    })
}

#[cfg(test)]
mod tests {
    use super::*;
    use crate::{generate, orders, random::Random};
    use player::{
        access,
        order::{field, number_bytes},
    };

    fn edges(x: i64, y: i64, w: i64, h: i64) -> Edges {
        let [x, y, w, h] = [x, y, w, h].map(|n| n as f32);
        Edges::of(Rect::new(x, y, w, h)).expect("no negative size")
    }

    /// Whether a rectangle meets none, in the words of document 01.
    fn clear([x, y, w, h]: [i64; 4], elements: &[[i64; 4]]) -> bool {
        let meets = |e: &[i64; 4]| {
            let [ex, ey, ew, eh] = *e;
            x < ex + ew && ex < x + w && y < ey + eh && ey < y + h
        };
        !elements.iter().any(meets)
    }

    /// Squares on a small grid, all of them tried. In units of a half, so that
    /// a centred one may begin between two whole numbers.
    #[test]
    fn the_widest_by_trying_all() {
        let r = &mut Random::new(1);
        let shape = Shape { w: 1, h: 1 };
        for _ in 0..3000 {
            let [w, h] = [0; 2].map(|_| 2 * r.whole(0, 9));
            let mut elements = r.list(0, 4, |r| {
                let [x, y] = [0; 2].map(|_| 2 * r.whole(-2, 9));
                [x, y, 2 * r.whole(0, 5), 2 * r.whole(0, 5)]
            });
            elements.sort();
            let exact: Vec<_> = elements
                .iter()
                .map(|&[x, y, w, h]| edges(x, y, w, h))
                .collect();
            let (mut centred, mut anywhere) = (0, 0);
            for size in 1..=w.min(h) {
                for (x, y) in (0..=w - size).flat_map(|x| (0..=h - size).map(move |y| (x, y))) {
                    if clear([x, y, size, size], &elements) {
                        anywhere = size;
                        centred = if 2 * x + size == w { size } else { centred };
                    }
                }
            }
            let area = edges(0, 0, w, h);
            let found = widest_centred(&area, &exact, shape).max(Exact::ZERO);
            assert_eq!(found.about(), centred as f64, "{w} {h} {elements:?}");
            let found = widest_anywhere(&area, &exact, shape);
            assert_eq!(found.about(), anywhere as f64, "{w} {h} {elements:?}");
        }
    }

    /// The Rust's picture has the centred width unless that is 0, and then it
    /// is off the middle, empty or next to nothing.
    #[test]
    fn the_centred_search_is_the_sources() {
        let r = &mut Random::new(2);
        let (mut wide, mut off) = (0, 0);
        for _ in 0..100_000 {
            let [w, h] = generate::screen(r);
            let area = Rect::new(0., 0., w, h);
            let obstacles = if r.yes() {
                generate::stacked(r, 19, [w, h])
            } else {
                r.list(0, 19, |r| generate::rect_on(r, [w, h]))
            };
            let aspect = r.pick(&[4. / 3., 480. / 272.]);
            let seen: Vec<_> = obstacles
                .iter()
                .copied()
                .filter(|e| e.overlaps(area))
                .collect();
            let picture = access::clear_picture_aspect(w, h, &seen, aspect);
            let found = centred_width(area, &obstacles, aspect);
            if found > 0. {
                assert_eq!(picture.w, found);
                wide += 1;
            } else {
                let middle = picture.x == (w - picture.w) / 2.;
                assert!(picture.w < 0.1 || !middle, "{picture:?}");
                off += u32::from(picture.w > 0.);
            }
        }
        assert!(wide > 500 && off > 500, "{wide} {off}");
    }

    fn layout(game: Rect, elements: &[Rect]) -> Vec<u8> {
        let [game, elements] = [orders::rects([&game]), orders::rects(elements)];
        [field(1, &game), field(2, &elements)].concat()
    }

    fn settings(order: &[u8]) -> Settings {
        match order::read(order) {
            Ok(settings) => settings,
            Err(refusal) => panic!("refusal {refusal}"),
        }
    }

    fn holds(settings: &Settings, game: Rect, elements: &[Rect]) -> bool {
        let measured = measure(settings, &layout(game, elements));
        measured.expect("a layout").holds
    }

    /// At just the slack demand 3 holds, and at the next f32 it does not.
    #[test]
    fn a_narrower_game_and_one_on_an_element_are_seen() {
        let screen = field(1, &number_bytes([800., 600.]));
        let area = field(2, &number_bytes([0., 0., 800., 600.]));
        let order = [screen, area, field(4, &[2])].concat();
        let settings = settings(&order);
        assert!(kept_clear(&settings.preset));
        let slack = 1. / 16.;
        let far = [Rect::new(900., 0., 10., 10.)];
        let game = |w: f32| Rect::new(0., 0., w, 600.);
        assert!(holds(&settings, game(800.), &far));
        assert!(holds(&settings, game(800. - slack), &far));
        assert!(!holds(&settings, game((800. - slack).next_down()), &far));
        assert!(!holds(&settings, game(0.), &far));
        // At the left a bar 100 wide leaves 600 in the middle.
        let bar = [Rect::new(0., 0., 100., 600.)];
        let game = |x: f32, w: f32| Rect::new(x, 0., w, 450.);
        assert!(holds(&settings, game(100., 600.), &bar));
        assert!(!holds(
            &settings,
            game(100., (600. - slack).next_down()),
            &bar
        ));
        assert!(holds(&settings, game(100. - slack, 600.), &bar));
        assert!(!holds(
            &settings,
            game((100. - slack).next_down(), 600.),
            &bar
        ));
        // In the middle it leaves 350 on either side, and nothing centred.
        let bar = [Rect::new(350., 0., 100., 600.)];
        assert!(holds(&settings, game(0., 350. - slack), &bar));
        assert!(!holds(
            &settings,
            game(0., (350. - slack).next_down()),
            &bar
        ));
        assert!(!holds(&settings, game(0., 0.), &bar));
    }

    /// Demand 3 holds of the Rust's own layouts, and of none of them with a
    /// game narrower by 1/8.
    #[test]
    fn layouts_of_the_rust() {
        let r = &mut Random::new(3);
        let (mut anywhere, mut empty) = (0, 0);
        for _ in 0..20_000 {
            let order = orders::keep_clear(r);
            let settings = settings(&order.bytes);
            assert!(kept_clear(&settings.preset), "{order:?}");
            let written = order::written(&settings.layout());
            let measured = measure(&settings, &written).expect("a layout");
            assert!(measured.holds, "{measured:?} {order:?}");
            anywhere += u32::from(measured.found == 0.);
            empty += u32::from(measured.width == 0.);
            let (game, elements) = rects(&written).expect("a layout");
            if game.w > 1. / 8. {
                let narrow = Rect::new(game.x, game.y, game.w - 1. / 8., game.h);
                assert!(!holds(&settings, narrow, &elements), "{order:?}");
            }
        }
        assert!(anywhere > 1000 && empty > 100, "{anywhere} {empty}");
    }
}
