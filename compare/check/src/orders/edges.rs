//! Orders that are hard for the film sheet: edges at halves of tenths and next
//! to them, above all sums that no f32 holds.
use super::{
    LIMIT, Parts, Random, Rect, SCREENS, cameras, fit, maybe, mode, next_to, saved_number, signed,
};

pub fn parts(r: &mut Random) -> Parts {
    let screen = [0; 2].map(|_| side(r));
    Parts {
        screen,
        picture: (r.below(4) > 0).then(|| picture(r)),
        mode: maybe(r, |r| mode(r) | r.pick(&[0, 4])),
        fit: maybe(r, fit),
        game: (r.below(4) == 0).then(|| game(r)),
        cutouts: (r.below(8) == 0).then(|| cameras(r, screen)),
        saved: (r.below(4) > 0).then(|| r.list(1, 19, |r| saved(r, screen))),
    }
}

/// Of a screen: mostly a power of two, of which parts are exact; in quarters,
/// also below the toolbar's height; of a tablet.
fn side(r: &mut Random) -> f32 {
    let most = r.pick(&[96, 4 * 800, 4 * 8192]);
    let quarters = r.whole(4, most) as f32 / 4.;
    match r.below(8) {
        0 => r.pick(SCREENS)[0],
        1 | 2 => next_to(r, quarters),
        _ => (1 << r.whole(5, 13)) as f32,
    }
}

/// A half of a tenth. An edge can be just there at 1/4 or 3/4, else next to it.
fn half(r: &mut Random, low: f32, high: f32) -> f64 {
    let whole = f64::from(r.between(low, high)).floor();
    let other = 0.1 * r.below(10) as f64 + 0.05;
    whole + r.pick(&[0.25, 0.75, 0.25, 0.75, other])
}

/// What an f32 sum drops, or an f64 sum, or ten times it in a coarser unit.
fn little(r: &mut Random) -> f32 {
    let power = r.pick(&[13, 20, 24, 33, 34, 35, 36, 37, 38, 40, 52, 60, 126]);
    let power = next_to(r, 2f32.powi(-power));
    let part = r.between(0., 1.);
    let subnormal = signed(r, 1, 0x0080_0000).abs();
    r.pick(&[power, power * part, subnormal])
}

/// Start and size of which the exact sum is at `end`, or next to it: the start
/// is at least `first`, and the size 0.
fn span(r: &mut Random, first: f32, end: f64) -> [f32; 2] {
    let room = (end - f64::from(first)).max(0.) as f32;
    let size = r.between(0., room);
    let rest = |size: f32| (end - f64::from(size)) as f32;
    let [start, size] = match r.below(8) {
        // Only one has a fraction.
        0 => [rest(size.floor()), size.floor()],
        1 => [size.floor(), rest(size.floor())],
        // The size ends there, and the start is next to nothing.
        2 | 3 if end < 0. => [rest(0.), little(r)],
        2 | 3 if first < 0. => [-little(r), rest(0.)],
        2 | 3 => [little(r), rest(0.)],
        4 => {
            let size = size.floor() + little(r);
            [rest(size), size]
        }
        _ => [rest(size), size],
    };
    let near = |r: &mut Random, n: f32| if r.below(8) == 0 { next_to(r, n) } else { n };
    [near(r, start), near(r, size.max(0.))]
}

/// A saved rectangle as parts of the screen, of which seldom one is any f32.
fn saved(r: &mut Random, screen: [f32; 2]) -> Rect {
    let [[x, w], [y, h]] = screen.map(|side| {
        let end = half(r, 24_f32.min(side), side);
        span(r, 0., end).map(|n| n / side)
    });
    let mut place = [x, y, w, h];
    if r.below(16) == 0 {
        place[r.below(4) as usize] = saved_number(r);
    }
    let [x, y, w, h] = place;
    Rect::new(x, y, w, h)
}

/// An area from which the game's width or height comes, or both; edges may be
/// below zero.
fn picture(r: &mut Random) -> Rect {
    let [[x, w], [y, h]] = [0; 2].map(|_| {
        let far = r.pick(&[1., 64., 1000., LIMIT - 1.]);
        let low = r.pick(&[0., 0., -far]);
        let end = half(r, low, far);
        span(r, -far, end)
    });
    let sizes = [[w, h], [w, LIMIT], [w, LIMIT], [LIMIT, h]];
    let [w, h] = r.pick(&sizes).map(|n| n.clamp(0., LIMIT));
    let [x, y] = [x, y].map(|n| n.clamp(-LIMIT, LIMIT));
    Rect::new(x, y, w, h)
}

/// Factors of which products are exact, and offsets that move next to nothing.
fn game(r: &mut Random) -> [f32; 3] {
    let offset = |r: &mut Random| {
        let little = little(r);
        r.pick(&[0., 0.5, 1., little])
    };
    [r.pick(&[1., 0.5, 0.75, 0.25]), offset(r), offset(r)]
}

/// Two numbers up to 2^17 in size: of any bits, or such that their exact sum is
/// at a half or next to it.
pub fn summands(r: &mut Random) -> [f32; 2] {
    const MOST: f32 = 131072.;
    let any = [0; 2].map(|_| signed(r, 0, MOST.to_bits()));
    let end = half(r, -MOST / 2., MOST / 2.);
    let rest = (end - f64::from(any[0])) as f32;
    let rest = r.pick(&[rest, rest.next_up(), rest.next_down()]);
    let far = r.pick(&[1., 64., 1000., LIMIT - 1.]);
    let end = half(r, -far, far);
    let on_film = span(r, -far, end);
    let [a, b] = match r.below(8) {
        0 => any,
        1..4 => [any[0], rest.clamp(-MOST, MOST)],
        _ => on_film,
    };
    r.pick(&[[a, b], [b, a], [-a, -b]])
}
