//! Calls the functions of hosts with made orders, numbers and touches, and others with made values. `drive N CALLS` tries edit N;
//! `drive 0 sheet` writes the sheet of the order on standard input.
use std::io::Read;

struct Random(u64);

impl Random {
    fn next(&mut self) -> u64 {
        self.0 ^= self.0 << 13;
        self.0 ^= self.0 >> 7;
        self.0 ^= self.0 << 17;
        self.0.wrapping_mul(0x2545_f491_4f6c_dd1d) >> 16
    }
    fn below(&mut self, n: u64) -> u64 {
        self.next() % n
    }
    fn one<T: Copy>(&mut self, of: &[T]) -> T {
        of[self.below(of.len() as u64) as usize]
    }
    fn chance(&mut self, percent: u64) -> bool {
        self.below(100) < percent
    }
}

const SIDES: [f32; 22] = [
    0.0, 1.0, 100.0, 320.0, 400.0, 480.0, 599.0, 600.0, 640.0, 720.0, 768.0, 799.0, 800.0, 810.0, 1000.0, 1080.0, 1200.0, 1280.0, 1366.0,
    1600.0, 2000.0, 8192.0,
];
const ODD: [f32; 12] = [0.0, -0.0, 0.25, 0.5, 1.0, -1.0, 8192.0, -8192.0, 8193.0, f32::NAN, f32::INFINITY, 1e-40];

fn side(r: &mut Random) -> f32 {
    match r.below(4) {
        0 | 1 => r.one(&SIDES),
        2 => r.below(2000) as f32,
        _ => r.below(8000) as f32 / 4.0,
    }
}

fn field(order: &mut Vec<u8>, tag: u8, value: &[u8]) {
    order.push(tag);
    order.extend((value.len() as u16).to_be_bytes());
    order.extend(value);
}

fn floats(numbers: &[f32]) -> Vec<u8> {
    numbers.iter().flat_map(|x| x.to_bits().to_be_bytes()).collect()
}

/// A camera hole at an edge, or anywhere.
fn hole(r: &mut Random, w: f32, h: f32) -> [f32; 4] {
    let (a, b) = (r.one(&[0.0, 10.0, 20.0, 30.0, 60.0, 100.0]), r.one(&[0.0, 10.0, 30.0, 60.0, 100.0, -5.0]));
    match r.below(5) {
        0 => [0.0, (r.below(9) as f32) * h / 8.0, a, b],
        1 => [w - a, (r.below(9) as f32) * h / 8.0, a, b],
        2 => [(r.below(9) as f32) * w / 8.0, 0.0, a, b],
        3 => [(r.below(9) as f32) * w / 8.0, h - b, a, b],
        _ => [side(r) % w.max(1.0), side(r) % h.max(1.0), a, b],
    }
}

fn order(r: &mut Random) -> Vec<u8> {
    let mut o = Vec::new();
    let (w, h) = if r.chance(70) { (side(r).max(300.0), side(r).max(300.0)) } else { (side(r), side(r)) };
    field(&mut o, 1, &floats(&[w, h]));
    if r.chance(40) {
        let (x, y): (f32, f32) = (r.one(&[0.0, 0.0, 10.0, -20.0, 100.0]), r.one(&[0.0, 0.0, 30.0, -20.0, 90.0]));
        let p = if r.chance(60) { [x, y, w - x.max(0.0), h - y.max(0.0)] } else { [x, y, side(r), side(r)] };
        field(&mut o, 2, &floats(&p.map(|n| n.min(8192.0))));
    }
    if r.chance(70) {
        field(&mut o, 3, &[if r.chance(96) { r.one(&[0, 1, 2, 2, 3, 4, 6, 7]) } else { 8 }]);
    }
    if r.chance(60) {
        field(&mut o, 4, &[if r.chance(96) { r.one(&[0, 1, 2, 2]) } else { 3 }]);
    }
    if r.chance(35) {
        let at = [r.one(&[1.0, 1.0, 0.5, 0.25, 0.1, 2.0, 1.5]), r.one(&[0.5, 0.5, 0.0, 1.0, 0.25, -1.0]), r.one(&[0.5, 0.5, 0.0, 1.0, 0.75])];
        field(&mut o, 5, &floats(&at));
    }
    if r.chance(55) {
        let n = if r.chance(97) { r.one(&[0, 1, 1, 2, 3, 5, 16]) } else { 17 };
        let holes: Vec<f32> = (0..n).flat_map(|_| hole(r, w, h)).collect();
        field(&mut o, 6, &floats(&holes));
    }
    if r.chance(25) {
        let n = if r.chance(95) { r.one(&[0, 1, 5, 15, 17, 19, 32]) } else { 33 };
        let saved: Vec<f32> = (0..4 * n).map(|_| if r.chance(90) { side(r) / 4.0 } else { r.one(&ODD) }).collect();
        field(&mut o, 7, &floats(&saved));
    }
    if r.chance(12) {
        let at = r.below(o.len() as u64) as usize;
        match r.below(4) {
            0 => o.truncate(at),
            1 => o[at] ^= 1 << r.below(8),
            2 => o.push(r.below(9) as u8),
            _ => {
                let n = 3 + 4 * (r.below(o.len() as u64 / 4) as usize);
                if n + 4 <= o.len() {
                    o[n..n + 4].copy_from_slice(&r.one(&ODD).to_bits().to_be_bytes());
                }
            }
        }
    }
    o
}

/// A place in, at the edge of or near an element of a layout, or anywhere.
fn touch(r: &mut Random, bytes: &[u8]) -> (f32, f32) {
    if r.chance(4) || bytes.len() < 30 {
        return (r.one(&ODD), r.one(&ODD));
    }
    let first = if r.chance(90) { 22 } else { 3 };
    let n = if first == 3 { 0 } else { r.below((bytes.len() as u64 - 60) / 16) as usize };
    let number = |i: usize| f32::from_bits(u32::from_be_bytes(bytes[first + 16 * n + 4 * i..][..4].try_into().unwrap()));
    let along = |r: &mut Random, at: f32, size: f32| match r.below(5) {
        0 => at + size / 2.0,
        1 => at + size * (r.below(101) as f32 / 100.0),
        2 => at + size / 2.0 + size * r.one(&[0.09, -0.09, 0.1, -0.1, 0.3, -0.3]),
        3 => at + r.one(&[0.0, -1.0, 1.0, -9.0]),
        _ => at + size + r.one(&[0.0, -1.0, 1.0, 9.0]),
    };
    let x = along(r, number(0), number(2));
    (x, along(r, number(1), number(3)))
}

fn whole(r: &mut Random) -> i32 {
    if r.chance(5) {
        return r.one(&[8192, 8193, -8192, -8193, i32::MAX, i32::MIN]);
    }
    r.one(&[0, 0, 1, 10, 100, 500, 600, 800, -1, -50, 9, 20]) + r.below(3) as i32
}

/// Rectangles as numbers, at times one too many or no whole number of them.
fn rects(r: &mut Random, most: u64, mut number: impl FnMut(&mut Random) -> f32) -> Vec<f32> {
    let n = if r.chance(97) { r.one(&[0, 0, 1, 2, most / 2, most]) } else { most + 1 };
    let more = if r.chance(97) { 0 } else { r.below(4) };
    (0..4 * n + more).map(|_| number(r)).collect()
}

/// Settings at and about their defaults and limits are written: into more room than they need, just enough, and one byte less.
fn write_order(r: &mut Random) {
    let (w, h) = if r.chance(70) { (side(r), side(r)) } else { (r.one(&ODD).abs(), r.one(&ODD).abs()) };
    let mut numbers = [w, h, 0.0, 0.0, w.max(1.0), h.max(1.0), 1.0, 0.5, 0.5];
    for n in &mut numbers {
        if r.chance(8) {
            *n = if r.chance(50) { r.one(&ODD) } else { side(r) };
        }
    }
    let limited = |r: &mut Random| if r.chance(99) { r.one(&[1.0, -1.0]) * side(r) } else { r.one(&ODD) };
    let cutouts = rects(r, 16, limited);
    let saved = rects(r, 32, |r| if r.chance(90) { side(r) / 4.0 } else { r.one(&ODD) });
    let mode = if r.chance(96) { r.below(8) as u8 } else { r.next() as u8 };
    let fit = if r.chance(96) { r.below(3) as u8 } else { r.next() as u8 };
    let write = |length| thumb_layout_c::tl_write_order(&numbers, mode, fit, &cutouts, &saved, &mut vec![7; length]);
    let length = write(900);
    if length > 0 {
        write(length as usize);
        write(length as usize - 1);
    }
}

/// Calls of fingers on whatever lies in a tracker, on the layout that these bytes have; by the order, and on the layout at hand.
fn fingers(r: &mut Random, order: &[u8], bytes: &[u8]) {
    let finger = |_| tracker::Finger {
        held: r.one(&[0, 0, 1, 300]),
        mask: if r.chance(50) { 1 << r.below(16) } else { r.next() as u16 },
    };
    let mut t = tracker::Tracker { fingers: [(); 10].map(finger) };
    let layout = reader::read_order(order).ok().map(preset::settings_layout);
    for _ in 0..6 {
        let (x, y) = touch(r, bytes);
        let finger = if r.chance(95) { r.one(&[0, 1, 2, 9]) } else { r.next() as u8 };
        let act = r.below(4);
        if let Some(l) = layout {
            let mut t = t;
            match act {
                0 => tracker::press(&mut t, l, finger, x, y),
                1 => tracker::lift(&mut t, l, finger),
                _ => tracker::move_to(&mut t, l, finger, x, y),
            };
        }
        match act {
            0 => thumb_layout_c::tl_press(&mut t, order, finger, x, y),
            1 => thumb_layout_c::tl_lift(&mut t, order, finger),
            _ => thumb_layout_c::tl_move(&mut t, order, finger, x, y),
        };
    }
}

fn hosts(r: &mut Random) {
    let o = order(r);
    let mut out = vec![7u8; if r.chance(90) { 400 } else { r.one(&[0, 264, 265, 284, 285, 352, 353]) }];
    thumb_layout_c::tl_layout(&o, &mut out);
    for _ in 0..4 {
        let (x, y) = touch(r, &out);
        let previous = if r.chance(50) { 0 } else { r.next() as u16 };
        thumb_layout_c::tl_touch(&o, x, y, previous);
    }
    fingers(r, &o, &out);
    let top = if r.chance(90) { r.below(120) as f32 } else { r.one(&ODD) };
    let covered = if r.chance(90) { r.below(200) as f32 - 60.0 } else { r.one(&ODD) };
    thumb_layout_c::tl_viewport_layout(&o, top, covered, &mut out);
    thumb_layout_c::tl_film(&o, &mut [7; 1024]);
    film_sheet::film_sheet(&o).as_slice();
    let mut numbers = [(); 8].map(|_| whole(r));
    if r.chance(50) {
        numbers.copy_within(..2, 2);
    }
    thumb_layout_c::tl_safe_content(&numbers, &mut [0.5; 4]);
    let edges = [(); 12].map(|_| whole(r));
    thumb_layout_c::tl_safe_edges(&edges, r.below(3) as u8, &mut [1; 4]);
    write_order(r);
}

/// Functions that hosts do not reach, or seldom with what matters.
fn inner(r: &mut Random) {
    if let Ok(s) = reader::read_order(&order(r)) {
        let l = preset::settings_layout(s);
        let n = l.element_count();
        let i = r.below(n as u64) as usize;
        let rect = l.element(i);
        l.set_element(i, l.game);
        l.game.fit(side(r) / 400.0);
        rect.same_bounds(l.element(r.below(n as u64) as usize));
        preset::layout_with_cutouts(s.preset, s.w, s.h, s.cutouts.as_slice());
        saved::capture(s.preset, l, s.w, s.h);
    }
    let (holes, others, original): (Vec<geometry::Rect>, Vec<_>, Vec<_>) = (made(r), made(r), made(r));
    order_writer::rects_in_limits(&holes[..]);
    fields::Field::new(made(r), fields::One(made::<u8>(r)));
    let mut candidates = moves::Candidates::new();
    for _ in 0..r.below(9) {
        candidates.insert(made(r), made(r));
    }
    candidates.slot(made(r));
    candidates.first_clear(moves::Surroundings { w: side(r), h: side(r), holes: &holes, others: &others }, &original);
    let bits = |r: &mut Random| match r.below(4) {
        0 => f32::from_bits(r.next() as u32),
        1 => f32::from_bits(r.below(1 << 24) as u32),
        2 => r.below(5000) as f32,
        _ => r.one(&ODD),
    };
    let (a, b, c) = (bits(r), bits(r), bits(r));
    hypot::hypot(a, b);
    // the root of u^4 + 2 u^2 v^2 + v^4 lies halfway between two f32 where it has 25 bits and is odd
    let (u, v) = (2900 + r.below(2900), 1 + r.below(2900));
    let scale = r.one(&[1.0, 0.25, 1e-30, 1e-42, 1e30]);
    hypot::hypot((u * u - v * v) as f32 * scale, (2 * u * v) as f32 * scale);
    hypot::hypot(f32::MAX, r.one(&[1.0, 1e38, f32::MAX])); // at times above every f32
    float::min(a, b);
    float::max(a, b);
    if b <= c {
        float::clamp(a, b, c);
    }
}

/// A value of any type that a function takes.
trait Made {
    fn made(r: &mut Random) -> Self;
}

fn made<T: Made>(r: &mut Random) -> T {
    T::made(r)
}

macro_rules! made {
    ($kind:ty, $r:ident, $value:expr) => {
        impl Made for $kind {
            fn made($r: &mut Random) -> Self {
                $value
            }
        }
    };
}

made!(bool, r, r.chance(50));
made!(f32, r, match r.below(10) {
    0..=4 => r.one(&[0.0, 1.0, 2.0, 5.0, 10.0, 20.0, 40.0, 100.0]) + r.one(&[0.0, 0.0, 0.01, 0.5]),
    5..=8 => r.one(&LITERALS), // those of the code, so that its tests are met with equality
    _ => r.one(&ODD),
});
made!(f64, r, made::<f32>(r) as f64);
made!(i32, r, whole(r));
made!(u8, r, r.one(&[0, 1, 2, 3, 4, 7, 8, 15, 16, 17, 128, 255]));
made!(u16, r, if r.chance(50) { r.below(8) as u16 } else { r.next() as u16 });
made!(u32, r, if r.chance(50) { r.below(8) as u32 } else { r.next() as u32 });
made!(u64, r, if r.chance(50) { r.below(8) } else { r.next() });
made!(u128, r, if r.chance(50) { r.below(100) as u128 } else { (r.next() as u128) << r.below(60) });
made!(usize, r, if r.chance(70) { r.below(20) as usize } else { r.next() as usize });

made!(&'static str, r, r.one(&["", "O", "TRI", "SELECT"]));

impl<T: Made, const N: usize> Made for [T; N] {
    fn made(r: &mut Random) -> Self {
        std::array::from_fn(|_| made(r))
    }
}

impl<T: Made> Made for Vec<T> {
    fn made(r: &mut Random) -> Self {
        (0..r.one(&[0, 1, 1, 2, 2, 3, 4, 5, 8, 16])).map(|_| made(r)).collect()
    }
}

impl<T: Made> Made for Option<T> {
    fn made(r: &mut Random) -> Self {
        r.chance(80).then(|| made(r))
    }
}

impl<T: Made, E: Made> Made for Result<T, E> {
    fn made(r: &mut Random) -> Self {
        if r.chance(80) { Ok(made(r)) } else { Err(made(r)) }
    }
}

impl<T: Made, U: Made> Made for (T, U) {
    fn made(r: &mut Random) -> Self {
        (made(r), made(r))
    }
}

fn main() {
    if std::env::args().nth(2).as_deref() == Some("sheet") {
        let mut order = Vec::new();
        std::io::stdin().read_to_end(&mut order).unwrap();
        let sheet = film_sheet::film_sheet(&order);
        print!("{}", String::from_utf8_lossy(sheet.as_slice()));
        return;
    }
    std::panic::set_hook(Box::new(|_| ()));
    let mut r = Random(0x9e37_79b9_7f4a_7c15);
    let calls: u32 = std::env::args().nth(2).and_then(|n| n.parse().ok()).unwrap_or(3000);
    let began = std::time::Instant::now();
    for _ in 0..calls {
        if began.elapsed().as_secs() >= 40 {
            break; // many calls are compared; a run that takes longer stands still in an edited function
        }
        hosts(&mut r);
        inner(&mut r);
        direct(&mut r);
    }
    println!("{}", beside::calls());
}
