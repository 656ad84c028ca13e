//! Generated orders: sound ones of several kinds, and damaged ones.
mod edges;
mod keep_clear;

pub use edges::summands;

use crate::{
    generate::{self, LIMIT, any_rect, cameras, number, rect, rect_on, signed, stacked},
    random::Random,
};
use player::{
    PictureFit, Preset, Rect,
    access::{self, native::Layout},
    order::{self, number_bytes},
    words::{Rest, Value, Word},
};

/// An order and how it was made.
#[derive(Clone, Debug)]
pub struct Order {
    pub bytes: Vec<u8>,
    pub kind: &'static str,
    pub damage: &'static str,
    /// How long its layout is.
    pub length: usize,
}

/// Its bytes alone.
impl Value for Order {
    fn kind() -> String {
        Vec::<u8>::kind()
    }
    fn put(&self, words: &mut Vec<Word>) {
        self.bytes.put(words);
    }
    fn take(rest: &mut Rest) -> Result<Self, String> {
        Ok(Self {
            bytes: Value::take(rest)?,
            kind: "given",
            damage: "none",
            length: 285,
        })
    }
}

/// A sound order, or in 3 of 8 cases one that is damaged.
pub fn order(r: &mut Random) -> Order {
    if r.below(8) < 3 { damaged(r) } else { sound(r) }
}

/// An order that is not refused.
pub fn sound(r: &mut Random) -> Order {
    let (kind, parts) = r.pick(KINDS);
    undamaged(kind, parts(r))
}

/// A sound order of which demand 3 speaks.
pub fn keep_clear(r: &mut Random) -> Order {
    undamaged("keep clear", keep_clear::parts(r))
}

/// A sound order whose layout has edges at and next to halves of tenths.
pub fn edges(r: &mut Random) -> Order {
    undamaged("film edges", edges::parts(r))
}

fn undamaged(kind: &'static str, parts: Parts) -> Order {
    Order {
        bytes: bytes(&fields(&parts)),
        kind,
        damage: "none",
        length: length(&parts),
    }
}

/// One that has a fault, or now and then two. Some faults do no harm.
pub fn damaged(r: &mut Random) -> Order {
    let (kind, parts) = r.pick(KINDS);
    let parts = parts(r);
    let mut fields = fields(&parts);
    let (damage, in_fields) = r.pick(IN_FIELDS);
    let (later, in_bytes) = r.pick(IN_BYTES);
    let which = r.below(8);
    if which < 5 {
        in_fields(r, &mut fields);
    }
    let mut bytes = bytes(&fields);
    if which >= 4 && !bytes.is_empty() {
        in_bytes(r, &mut bytes);
    }
    Order {
        bytes,
        kind,
        damage: match which {
            0..4 => damage,
            4 => "two faults",
            _ => later,
        },
        length: length(&parts),
    }
}

/// What an order has: a part that is none is absent.
#[derive(Default)]
struct Parts {
    screen: [f32; 2],
    picture: Option<Rect>,
    mode: Option<u8>,
    fit: Option<u8>,
    game: Option<[f32; 3]>,
    cutouts: Option<Vec<Rect>>,
    saved: Option<Vec<Rect>>,
}

fn length(parts: &Parts) -> usize {
    let mode = parts.mode.unwrap_or(0);
    match (mode & 1, mode & 2) {
        (1, _) => 265,
        (_, 2) => 353,
        _ => 285,
    }
}

/// A field, whose length need not be that of its value.
#[derive(Clone)]
struct Field {
    tag: u8,
    length: usize,
    value: Vec<u8>,
}

fn field(tag: u8, value: Vec<u8>) -> Field {
    let length = value.len();
    Field { tag, length, value }
}

pub fn rects<'a>(rects: impl IntoIterator<Item = &'a Rect>) -> Vec<u8> {
    number_bytes(rects.into_iter().flat_map(|r| [r.x, r.y, r.w, r.h]))
}

fn fields(parts: &Parts) -> Vec<Field> {
    let values = [
        Some(number_bytes(parts.screen)),
        parts.picture.as_ref().map(|picture| rects([picture])),
        parts.mode.map(|mode| vec![mode]),
        parts.fit.map(|fit| vec![fit]),
        parts.game.map(number_bytes),
        parts.cutouts.as_ref().map(rects),
        parts.saved.as_ref().map(rects),
    ];
    let tagged = (1..).zip(values);
    tagged.flat_map(|(tag, v)| Some(field(tag, v?))).collect()
}

fn bytes(fields: &[Field]) -> Vec<u8> {
    let bytes = |f: &Field| [&[f.tag], &(f.length as u16).to_be_bytes()[..], &f.value].concat();
    fields.iter().flat_map(bytes).collect()
}

// ---- sound orders

type Make = fn(&mut Random) -> Parts;

/// The kinds of sound orders.
const KINDS: &[(&str, Make)] = &[
    ("tablet", tablet),
    ("tablet", tablet),
    ("ordinary", ordinary),
    ("ordinary", ordinary),
    ("at limits", at_limits),
    ("at limits", at_limits),
    ("rails", rails),
    ("gains", gains),
    ("extreme", extreme),
    ("saved", saved),
    ("cutouts", cutouts),
];

fn maybe<T>(r: &mut Random, make: impl FnOnce(&mut Random) -> T) -> Option<T> {
    r.yes().then(|| make(r))
}

fn mode(r: &mut Random) -> u8 {
    r.pick(&[0, 0, 0, 1, 1, 2, 2, 2, 3, 4, 5, 6, 7])
}

fn fit(r: &mut Random) -> u8 {
    r.below(3) as u8
}

/// Sizes of screens, each also turned.
const SCREENS: &[[f32; 2]] = &[
    [1000., 1000.],
    [1024., 600.],
    [1024., 768.],
    [1080., 810.],
    [1112., 834.],
    [1133., 744.],
    [1138., 711.],
    [1180., 820.],
    [1194., 834.],
    [1205.3334, 753.3333],
    [1280., 720.],
    [1280., 800.],
    [1366., 1024.],
    [1368., 912.],
    [1422.2222, 888.8889],
    [1440., 900.],
    [1440., 960.],
    [1600., 1000.],
    [1920., 1080.],
    [1920., 1200.],
    [2048., 1536.],
    [2360., 1640.],
    [2388., 1668.],
    [2560., 1600.],
    [2732., 2048.],
    [320., 240.],
    [480., 320.],
    [568., 320.],
    [640., 360.],
    [640., 480.],
    [712., 712.],
    [731.4286, 411.42856],
    [800., 480.],
    [800., 600.],
    [840., 720.],
    [844., 390.],
    [896., 414.],
    [932., 430.],
    [960., 540.],
    [960., 600.],
    [966., 604.],
];

/// A screen that there is, less the system's bars at times, with a camera and
/// the rectangles of a layout that a player moved a little.
fn tablet(r: &mut Random) -> Parts {
    let [mut w, mut h] = r.pick(SCREENS);
    if r.yes() {
        (w, h) = (h, w);
    }
    h -= r.pick(&[0., 0., 0., 24., 24.5, 48., 72.]);
    let screen = [w, h];
    let top = r.pick(&[0., 24., 24.5, 32., 48.]);
    let mut parts = Parts {
        screen,
        picture: maybe(r, |r| {
            let raised = Rect::new(0., -top, w, h + top);
            r.pick(&[Rect::new(0., 0., w, h), raised])
        }),
        mode: maybe(r, mode),
        fit: maybe(r, fit),
        game: r.pick(&[None, None, Some([1., 0.5, 0.5])]),
        cutouts: maybe(r, |r| camera(r, screen)),
        saved: None,
    };
    if r.below(4) == 0 {
        let part = |r: &mut Random| r.pick(&[0., 0.25, 0.5, 0.75, 1.]);
        parts.game = Some([r.between(0.25, 1.), part(r), part(r)]);
    }
    if r.below(4) == 0 {
        parts.saved = Some(moved(r, &parts));
    }
    parts
}

/// A round camera or a notch, at the top or beside it.
fn camera(r: &mut Random, [w, h]: [f32; 2]) -> Vec<Rect> {
    let size = r.pick(&[24., 28.5, 32., 40.]);
    let across = (w - size) / 2.;
    let down = (h - size) / 2.;
    let place = r.pick(&[
        Rect::new(across, 8., size, size),
        Rect::new(across - 60., 0., size + 120., size),
        Rect::new(0., down, size, size),
        Rect::new(w - size, down, size, size),
        Rect::new(w - size, down - 80., size, size + 160.),
        Rect::new(12., 12., size, size),
        Rect::new(w - size - 12., 12., size, size),
    ]);
    let second = Rect::new(place.x, h - size, size, size);
    let count = r.pick(&[1, 2]);
    [place, second][..count].to_vec()
}

/// A layout's rectangles as they are saved, some of them moved.
fn moved(r: &mut Random, parts: &Parts) -> Vec<Rect> {
    let [w, h] = parts.screen;
    let order = bytes(&fields(parts));
    let mut preset = Preset::default();
    preset.capture(&order::read(&order).expect("a sound order").layout(), w, h);
    let mut saved = preset.elements;
    for rect in &mut saved {
        if r.below(4) == 0 {
            rect.x += r.between(-0.1, 0.1);
            rect.y += r.between(-0.1, 0.1);
        }
        if r.below(8) == 0 {
            rect.w *= r.between(0.5, 2.);
            rect.h *= r.between(0.5, 2.);
        }
    }
    saved
}

/// The parts of a preset; its own fit byte and game, or none if as absent.
fn with_preset(r: &mut Random, parts: Parts, preset: Preset) -> Parts {
    let bits = [preset.psp, preset.analog, preset.allow_overlap];
    let mode = (0..).zip(bits).map(|(i, bit)| u8::from(bit) << i).sum();
    let fit = match preset.picture_fit {
        None => 0,
        Some(PictureFit::Maximum) => 1,
        Some(PictureFit::KeepClear) => 2,
    };
    let [across, down] = preset.game_offset;
    let game = [preset.game_scale, across, down];
    let said = r.below(4) == 0;
    Parts {
        mode: (said || mode != 0).then_some(mode),
        fit: (said || fit != 1).then_some(fit),
        game: (said || game != [1., 0.5, 0.5]).then_some(game),
        saved: (said || !preset.elements.is_empty()).then_some(preset.elements),
        ..parts
    }
}

/// Whether a layout has a negative zero, which is written as plus zero.
pub fn negative_zero(layout: &Layout) -> bool {
    let elements = (0..layout.element_count()).map(|i| layout.element(i));
    let numbers = std::iter::once(layout.game).chain(elements);
    numbers
        .flat_map(|r| [r.x, r.y, r.w, r.h])
        .any(|n| n == 0. && n.is_sign_negative())
}

/// What tag 4 says.
pub fn fit_word(fit: Option<PictureFit>) -> &'static str {
    match fit {
        None => "unset",
        Some(PictureFit::Maximum) => "Maximum",
        Some(PictureFit::KeepClear) => "KeepClear",
    }
}

/// Screens, pictures, cutouts and presets as the other comparisons have them.
fn ordinary(r: &mut Random) -> Parts {
    let screen = r.pick(&[generate::order_screen, generate::tablet])(r);
    let parts = Parts {
        screen,
        picture: maybe(r, |r| generate::picture(r, screen)),
        cutouts: maybe(r, |r| generate::cutouts(r, screen)),
        ..Parts::default()
    };
    let preset = generate::preset(r);
    with_preset(r, parts, preset)
}

/// Sizes that the Rust tests for.
const EDGES: &[f32] = &[
    1., 24., 48., 96., 112., 122., 124., 184., 300., 304., 320., 336., 360., 368., 378., 600.,
    712., 800., 1080.,
];

/// A number or one next to it, in the limits.
fn next_to(r: &mut Random, n: f32) -> f32 {
    let near = r.pick(&[n, n.next_up(), n.next_down()]);
    near.clamp(-LIMIT, LIMIT)
}

/// A screen or a picture just at a test's limit, or next to it.
fn at_limits(r: &mut Random) -> Parts {
    let side = |r: &mut Random| {
        let whole = r.whole(100, 2000) as f32;
        let edge = r.pick(EDGES);
        r.pick(&[edge, edge, edge, LIMIT, whole])
    };
    let h = side(r);
    let shape = r.pick(&[1.35, 1., 4. / 3., 480. / 272., 16. / 9., 0.75]);
    let w = if r.yes() { h * shape } else { side(r) };
    let screen = [next_to(r, w), next_to(r, h)];
    let picture = maybe(r, |r| {
        let [w, h] = screen;
        let (top, low, high) = (r.pick(EDGES), side(r), r.pick(&[h, h / 2.]));
        let picture = r.pick(&[
            Rect::new(0., 0., w, h),
            Rect::new(0., -top, w, h + top),
            Rect::new(0., 0., w, low),
            Rect::new(0., 0., high * shape, high),
        ]);
        let [y, w, h] = [picture.y, picture.w, picture.h].map(|n| next_to(r, n));
        Rect::new(picture.x, y, w, h)
    });
    Parts {
        screen,
        picture,
        mode: maybe(r, mode),
        fit: Some(fit(r)),
        game: maybe(r, |r| {
            let near = |r: &mut Random, n: f32| if r.yes() { n } else { next_to(r, n) };
            [near(r, 1.), near(r, 0.5), near(r, 0.5)]
        }),
        cutouts: (r.below(4) == 0).then(|| cameras(r, screen)),
        saved: None,
    }
}

/// An analog or psp layout under KeepClear, on a screen that is about wide
/// enough for rails beside the picture; often a cutout is on the default
/// layout, and the picture is about as wide as the one that this leaves clear.
fn rails(r: &mut Random) -> Parts {
    let (screen, mut picture, cutouts, psp) = generate::beside(r);
    let [w, h] = screen;
    let default = if psp {
        access::psp
    } else {
        access::analog_default
    }(w, h);
    let e = access::element(&default, r.below(14) as usize);
    let on_it = Rect::new(e.x + r.between(-4., e.w), e.y + r.between(-4., e.h), 8., 8.);
    let cutouts = match r.below(3) {
        0 => vec![],
        1 => vec![on_it],
        _ => cutouts,
    };
    if r.yes() {
        let aspect = if psp { 480. / 272. } else { 4. / 3. };
        let clear = access::avoid_cutouts(&default, w, h, &cutouts);
        let clear = access::place_game_in_aspect(&clear, picture, false, 1., [0.5; 2], aspect);
        let wider = clear.game.w + r.pick(&[-0.02, -0.01, 0., 0.005, 0.01, 0.02]);
        picture.h = (wider / aspect).max(0.);
    }
    let overlap = if r.below(8) == 0 { 4 } else { 0 };
    Parts {
        screen,
        picture: Some(picture),
        mode: Some(if psp { 1 } else { 2 } | overlap),
        fit: Some(r.pick(&[2, 2, 2, 0])),
        game: r.pick(&[
            None,
            None,
            None,
            Some([1., 0.5, 0.25]),
            Some([0.75, 0.5, 0.5]),
        ]),
        cutouts: Some(cutouts),
        saved: None,
    }
}

/// A standard layout in an area that is about as high or as wide as the game
/// which one arrangement leaves clear, so that another gains next to nothing.
/// Overlap, or a saved rectangle that is passed over, sees to it that no band
/// is taken without comparison.
fn gains(r: &mut Random) -> Parts {
    let screen = r.pick(&[generate::tablet, |r: &mut Random| r.pick(SCREENS)])(r);
    let [w, h] = screen;
    let whole = Rect::new(0., 0., w, h);
    let arranged = access::arranged(w, h, r.yes());
    let game = access::place_game_in(&arranged, whole, false, 1., [0.5; 2]).game;
    let more = r.pick(&[-0.01, 0., 0.001, 0.005, 0.0099, 0.01, 0.0101, 0.02]);
    let wider = game.w + more;
    let [across, bottom] = [wider, game.y + wider * 0.75].map(|n| n.clamp(0., LIMIT));
    // In a low area no band gains 0.01 or less: what reaches 0.01 into it is no
    // obstacle to the other layout.
    let low = Rect::new(0., 0., w, bottom);
    let narrow = Rect::new(0., 0., across, h);
    let passed_over = Rect::new(f32::NAN, 0., 0., 0.);
    Parts {
        screen,
        picture: Some(r.pick(&[low, narrow])),
        mode: r.pick(&[None, Some(4)]),
        fit: Some(r.pick(&[2, 2, 2, 1])),
        cutouts: (r.below(4) == 0).then(|| cameras(r, screen)),
        saved: (r.below(4) == 0).then(|| vec![passed_over]),
        ..Parts::default()
    }
}

/// A number in the limits, often the least, the greatest or next to nothing.
fn extreme_number(r: &mut Random) -> f32 {
    let tiny = signed(r, 0, 0x0100_0000);
    let limit = r.pick(&[LIMIT, LIMIT.next_down()]);
    let one = r.pick(&[1f32, 1f32.next_down(), 1f32.next_up(), 0.5]);
    let any = number(r);
    let size = r.pick(&[0., tiny, limit, one, any]);
    if r.yes() { size } else { -size }
}

/// Screens and all else of extreme numbers.
fn extreme(r: &mut Random) -> Parts {
    let side = |r: &mut Random| {
        let side = extreme_number(r);
        if side == 0. { side } else { side.abs() }
    };
    let any = |r: &mut Random| {
        let n = [0; 4].map(|_| extreme_number(r));
        Rect::new(n[0], n[1], n[2], n[3])
    };
    let ordinary = generate::screen(r);
    let most = r.pick(&[0, 1, 16]);
    let kept = r.pick(&[0, 1, 32]);
    Parts {
        screen: [0, 1].map(|i| {
            if r.below(3) == 0 {
                ordinary[i]
            } else {
                side(r)
            }
        }),
        picture: maybe(r, |r| {
            Rect::new(extreme_number(r), extreme_number(r), side(r), side(r))
        }),
        mode: maybe(r, mode),
        fit: maybe(r, fit),
        game: maybe(r, |r| [0; 3].map(|_| extreme_number(r))),
        cutouts: maybe(r, |r| r.list(0, most, any)),
        saved: maybe(r, |r| r.list(0, kept, any_rect)),
    }
}

/// A saved number: a part of a screen, one just beyond its edge, or any of the
/// f32 that tag 7 takes: NaN with any payload, infinities, subnormal, huge.
pub fn saved_number(r: &mut Random) -> f32 {
    match r.below(16) {
        0 => signed(r, 0x7F80_0001, 0x7FFF_FFFF),
        1 => r.pick(&[f32::INFINITY, f32::NEG_INFINITY]),
        2 => signed(r, 0, 0x0080_0000),
        3 => signed(r, 0x7000_0000, 0x7F7F_FFFF),
        4 => r.pick(&[
            0.,
            -0.,
            1f32.next_up(),
            1f32.next_down(),
            f32::MAX,
            f32::MIN,
        ]),
        5 => r.between(-2., 2.),
        6 => f32::from_bits(r.bits() as u32),
        _ => r.between(0., 1.) * r.pick(&[1., 0.5, 0.1]),
    }
}

/// 1 to 32 saved rectangles, of which all numbers are ordinary or any are.
fn saved(r: &mut Random) -> Parts {
    let mut parts = tablet(r);
    let count = r.pick(&[1, 8, 15, 19, 32, 32]);
    parts.saved = Some(r.list(count.min(8), count, |r| {
        if r.yes() {
            return generate::saved(r);
        }
        let n = [0; 4].map(|_| saved_number(r));
        Rect::new(n[0], n[1], n[2], n[3])
    }));
    parts
}

/// 1 to 16 cutouts: on elements, at edges, on top of each other, of no size or
/// a negative one, or huge.
fn cutouts(r: &mut Random) -> Parts {
    let mut parts = if r.yes() { tablet(r) } else { ordinary(r) };
    parts.cutouts = None;
    let screen = parts.screen;
    let [w, h] = screen;
    let order = bytes(&fields(&parts));
    let layout = order::read(&order).expect("a sound order").layout();
    let elements = layout.element_count();
    let most = r.pick(&[1, 2, 4, 16, 16]);
    let grid = stacked(r, 16, screen);
    let mut list = r.list(1, most, |r| {
        let size = [r.between(-10., 60.), r.between(-10., 60.)];
        let [width, height] = r.pick(&[size, size, size, [0., size[1]], [size[0], 0.], [0., 0.]]);
        match r.below(8) {
            0..4 => {
                let index = r.below(elements as u64) as usize;
                let e = layout.element(index);
                let [x, y] = [r.between(-20., e.w), r.between(-20., e.h)];
                Rect::new(e.x + x, e.y + y, width, height)
            }
            4 => Rect::new(r.pick(&[0., w - width, w]), r.between(0., h), width, height),
            5 => Rect::new(
                r.between(0., w),
                r.pick(&[0., h - height, h]),
                width,
                height,
            ),
            6 => rect_on(r, screen),
            _ => rect(r),
        }
    });
    if r.below(8) == 0 {
        list = grid;
    }
    for cutout in &mut list {
        let n = [cutout.x, cutout.y, cutout.w, cutout.h].map(|n| n.clamp(-LIMIT, LIMIT));
        *cutout = Rect::new(n[0], n[1], n[2], n[3]);
    }
    parts.cutouts = Some(list);
    parts
}

// ---- damage

type InFields = fn(&mut Random, &mut Vec<Field>);

/// Faults of single fields and of their order.
const IN_FIELDS: &[(&str, InFields)] = &[
    ("tag changed", |r, fields| {
        let any = r.bits() as u8;
        let tag = r.pick(&[0, 8, 9, 255, any]);
        any_field(r, fields).tag = tag;
    }),
    ("fields exchanged", |r, fields| {
        let [a, b] = [0; 2].map(|_| r.below(fields.len() as u64) as usize);
        fields.swap(a, b);
    }),
    ("field repeated", |r, fields| {
        let from = r.below(fields.len() as u64) as usize;
        let to = r.pick(&[from, from + 1, fields.len()]);
        fields.insert(to, fields[from].clone());
    }),
    ("screen left out", |_, fields| {
        fields.remove(0);
    }),
    ("length changed", |r, fields| {
        let any = r.below(65536) as usize;
        let field = any_field(r, fields);
        let lengths = [field.length + 1, field.length.saturating_sub(1), 0, any];
        field.length = r.pick(&lengths);
    }),
    ("value of another length", |r, fields| {
        let length = r.pick(&[0, 1, 2, 4, 7, 8, 9, 12, 15, 16, 17, 24, 31, 32, 33]);
        let field = any_field(r, fields);
        let more = r.bits() as u8;
        field.value.resize(length, more);
        field.length = length;
    }),
    ("too many rectangles", |r, fields| {
        let (tag, limit) = r.pick(&[(6, 16), (7, 32)]);
        let many = if r.below(64) == 0 { 4095 } else { limit + 8 };
        // The limit itself is sound.
        let count = r.pick(&[limit, limit + 1, limit + 1, many]);
        let rect = if tag == 6 { rect(r) } else { any_rect(r) };
        let field = tagged(fields, tag);
        field.value = rects(&vec![rect; count]);
        // A bad length goes before it.
        if r.below(8) == 0 {
            field.value.pop();
        }
        field.length = field.value.len();
    }),
    ("odd mark", |r, fields| {
        let tag = r.pick(&[3, 4]);
        let mark = r.bits() as u8;
        let low = mark & 7;
        let field = tagged(fields, tag);
        field.value = vec![r.pick(&[mark, low, 3, 8 | low, 0x80 | low])];
        field.length = 1;
    }),
    ("number off the scale", |r, fields| {
        let nan = signed(r, 0x7F80_0001, 0x7FFF_FFFF);
        let bad = [
            LIMIT.next_up(),
            -LIMIT.next_up(),
            f32::INFINITY,
            f32::NEG_INFINITY,
            f32::MAX,
            nan,
            nan,
        ];
        // These are sound where a number may be negative.
        let least = [-f32::from_bits(1), -f32::MIN_POSITIVE, -1., -0., -LIMIT];
        let number = if r.below(3) == 0 {
            r.pick(&least)
        } else {
            r.pick(&bad)
        };
        let tag = r.pick(&[1, 1, 2, 2, 5, 6]);
        let field = tagged(fields, tag);
        if field.value.is_empty() {
            field.value = vec![0; 16];
            field.length = 16;
        }
        let at = 4 * r.below(field.value.len() as u64 / 4) as usize;
        field.value[at..at + 4].copy_from_slice(&number.to_be_bytes());
    }),
];

fn any_field<'a>(r: &mut Random, fields: &'a mut [Field]) -> &'a mut Field {
    let at = r.below(fields.len() as u64) as usize;
    &mut fields[at]
}

/// The field of a tag, which is put where it belongs if it is absent.
fn tagged(fields: &mut Vec<Field>, tag: u8) -> &mut Field {
    let at = fields.iter().take_while(|f| f.tag < tag).count();
    if fields.get(at).is_none_or(|f| f.tag != tag) {
        let length = [8, 16, 1, 1, 12, 0, 0][usize::from(tag) - 1];
        fields.insert(at, field(tag, vec![0; length]));
    }
    &mut fields[at]
}

type InBytes = fn(&mut Random, &mut Vec<u8>);

/// Faults of the bytes, of which there are some, wherever they are.
const IN_BYTES: &[(&str, InBytes)] = &[
    ("cut off", cut),
    ("cut off", cut),
    ("cut off", cut),
    ("byte changed", |r, bytes| {
        let any = r.bits() as u8;
        *any_byte(r, bytes) = any;
    }),
    ("bit changed", |r, bytes| {
        let bit = 1 << r.below(8);
        *any_byte(r, bytes) ^= bit;
    }),
    ("byte put in", |r, bytes| {
        let (any, most) = (r.bits() as u8, bytes.len() as u64);
        bytes.insert(r.below(most + 1) as usize, any);
    }),
    ("byte left out", |r, bytes| {
        bytes.remove(r.below(bytes.len() as u64) as usize);
    }),
    ("bytes after the end", |r, bytes| {
        let more = r.list(1, 20, |r| r.bits() as u8);
        bytes.extend(more);
    }),
    ("any bytes", |r, bytes| {
        // Small ones, so that tags and lengths are met.
        *bytes = r.list(0, 40, |r| r.pick(&[255, 17, 9]) & r.bits() as u8);
    }),
    ("empty", |_, bytes| bytes.clear()),
];

fn cut(r: &mut Random, bytes: &mut Vec<u8>) {
    let most = bytes.len() as u64;
    bytes.truncate(r.below(most) as usize);
}

fn any_byte<'a>(r: &mut Random, bytes: &'a mut [u8]) -> &'a mut u8 {
    let at = r.below(bytes.len() as u64) as usize;
    &mut bytes[at]
}

#[cfg(test)]
mod tests {
    use super::*;

    /// Sound orders are not refused, and have layouts of the length they say;
    /// damaged ones are refused in every way that the bytes can be.
    #[test]
    fn sound_orders_are_accepted_and_damaged_ones_refused() {
        let r = &mut Random::new(1);
        let mut refusals = [0; 8];
        for _ in 0..50_000 {
            let order = sound(r);
            let layout = order::read(&order.bytes).map(|settings| settings.layout());
            let layout = layout.unwrap_or_else(|refusal| panic!("{refusal}: {order:?}"));
            assert_eq!(order::written(&layout).len(), order.length, "{order:?}");
            let refusal = order::read(&damaged(r).bytes).err();
            refusals[refusal.unwrap_or(0) as usize] += 1;
        }
        assert!(refusals.iter().all(|count| *count > 100), "{refusals:?}");
    }

    /// The kind `gains` has orders in which a band gains 0.01 or less over the
    /// layout at first, and is not taken in another way.
    #[test]
    fn small_gains_of_a_band_are_met() {
        let r = &mut Random::new(1);
        let gain = |parts: &Parts| {
            let ([w, h], area) = (parts.screen, parts.picture?);
            let cutouts = parts.cutouts.as_deref().unwrap_or(&[]);
            let band = access::controller_band(w, h, false, false, area)?;
            Some(band.game.w - access::default_in(w, h, cutouts, area).game.w)
        };
        let small = |parts: &Parts| {
            let plain = parts.mode.is_none() && parts.saved.is_none();
            !plain && gain(parts).is_some_and(|gain| gain > 0. && gain <= 0.01)
        };
        let count = (0..20_000).filter(|_| small(&gains(r))).count();
        assert!(count > 50, "{count}");
    }
}
