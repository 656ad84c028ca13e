//! Orders that are hard for demand 3: KeepClear without overlap at size factor
//! 1, with edges that almost meet, a full centre column, areas at the limits.
use super::{LIMIT, Parts, Random, Rect, SCREENS, cameras, extreme_number, generate, next_to};

pub fn parts(r: &mut Random) -> Parts {
    let screen = screen(r);
    let edges = [0, 1].map(|axis| edges(r, screen[axis]));
    let (fit, game) = fit(r);
    Parts {
        screen,
        picture: picture(r, screen, &edges),
        mode: r.pick(&[None, Some(0), Some(1), Some(2), Some(3)]),
        fit: Some(fit),
        game,
        cutouts: r.pick(&[false, false, true]).then(|| cameras(r, screen)),
        saved: (r.below(4) > 0).then(|| saved(r, screen, &edges)),
    }
}

fn screen(r: &mut Random) -> [f32; 2] {
    let [w, h] = r.pick(SCREENS);
    let wide = r.pick(&[1., 24., 800., LIMIT, LIMIT.next_down()]);
    let any = [0; 2].map(|_| r.between(1., 60.) * r.pick(&[1., 16., 128.]));
    r.pick(&[[w, h], [h, w], any, [wide, h], [w, wide], [wide, wide]])
}

/// Places on one axis where edges may lie, several of them for each.
fn edges(r: &mut Random, side: f32) -> [f32; 4] {
    let part = |r: &mut Random| side * r.whole(0, 16) as f32 / 16.;
    [side / 2., part(r), part(r), part(r)]
}

/// A number or one within 0.02 of it: on either side of the slack of 0.01.
fn near(r: &mut Random, n: f32) -> f32 {
    let apart = r.pick(&[0.005, 0.0099, 0.01, 0.0101, 0.02, 0.0625]);
    let close = [n, n.next_up(), n.next_down(), n + apart, n - apart];
    r.pick(&close)
}

/// Saved rectangles as parts of the screen, of which edges almost meet, or
/// which lie across the centre; some of any numbers.
fn saved(r: &mut Random, [w, h]: [f32; 2], edges: &[[f32; 4]; 2]) -> Vec<Rect> {
    let kind = r.below(4);
    let count = r.whole(1, 12);
    let (rows, mut row) = (count as f32, 0.);
    // Without a gap between rows, or with one that may be as small as an f32's step.
    let lap = r.pick(&[0., 1.]);
    r.list(count, 19, |r| {
        let [x, right] = [0; 2].map(|_| near_edge(r, &edges[0]));
        let [y, bottom] = [0; 2].map(|_| near_edge(r, &edges[1]));
        let on_edges = Rect::new(x, y, (right - x).abs(), (bottom - y).abs());
        // One row below the other, from the left half into the right.
        let [left, more] = [0; 2].map(|_| r.between(-0.02, w / 2.));
        let top = near(r, h * row / rows);
        let across = Rect::new(w / 2. - left, top, left + more, near(r, h / rows) + lap);
        row = (row + 1.) % rows;
        let whole = Rect::new(0., 0., w, h);
        let place = match (kind, r.below(32)) {
            (_, 0) => return generate::saved(r),
            (0, 1) => whole,
            (0 | 1, _) => across,
            _ => on_edges,
        };
        Rect::new(place.x / w, place.y / h, place.w / w, place.h / h)
    })
}

fn near_edge(r: &mut Random, edges: &[f32; 4]) -> f32 {
    let edge = r.pick(edges);
    near(r, edge)
}

/// The area: absent, the screen, raised, between edges of elements, small or
/// empty, at the limits, or of extreme numbers.
fn picture(r: &mut Random, [w, h]: [f32; 2], edges: &[[f32; 4]; 2]) -> Option<Rect> {
    let top = r.pick(&[0., 24.5, 80.]);
    let [x, right] = [0; 2].map(|_| near_edge(r, &edges[0]));
    let [y, bottom] = [0; 2].map(|_| near_edge(r, &edges[1]));
    let little = [0; 2].map(|_| r.pick(&[0., 1e-30, 0.01, 0.0625, 1., 30.]));
    let limits = [0; 4].map(|_| {
        let n = r.pick(&[-LIMIT, LIMIT, 0., -w, w, h]);
        next_to(r, n)
    });
    let any = [0; 4].map(|_| extreme_number(r));
    let area = match r.below(8) {
        0 => return None,
        1 => Rect::new(0., 0., w, h),
        2 => Rect::new(0., -top, w, h + top),
        3 | 4 => Rect::new(x, y, right - x, bottom - y),
        5 => Rect::new(x, y, little[0], r.pick(&[little[1], h])),
        6 => Rect::new(limits[0], limits[1], limits[2], limits[3]),
        _ => Rect::new(any[0], any[1], any[2], any[3]),
    };
    let [x, y] = [area.x, area.y].map(|n| n.clamp(-LIMIT, LIMIT));
    let [w, h] = [area.w, area.h].map(|n| n.abs().min(LIMIT));
    Some(Rect::new(x, y, w, h))
}

/// The byte of KeepClear, or an unset fit with a game that makes it so.
fn fit(r: &mut Random) -> (u8, Option<[f32; 3]>) {
    let moved = [1., r.between(-1., 2.), extreme_number(r)];
    match r.below(4) {
        0 => (0, Some([1., 0.5f32.next_up(), 0.5])),
        1 => (2, Some(moved)),
        _ => (2, None),
    }
}
