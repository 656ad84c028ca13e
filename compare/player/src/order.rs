//! The order as document 01 has it, answered by the Rust: its bytes are read,
//! the Rust lays out, and the layout's bytes are written.
pub mod writer;

use crate::access::native::{self, Layout};
use crate::{PictureFit, PlayerViewport, Preset, Rect};

/// An answer, or the number of a refusal.
pub type Answer<T> = Result<T, i32>;

pub const CUT_OFF: i32 = 1;
pub const OUT_OF_TURN: i32 = 2;
pub const BAD_LENGTH: i32 = 3;
pub const NO_SCREEN: i32 = 4;
pub const ODD_MARK: i32 = 5;
pub const OFF_THE_SCALE: i32 = 6;
pub const OVERFULL: i32 = 7;
pub const SHEET_TOO_SMALL: i32 = 8;

/// Fails with a refusal unless a rule is kept.
fn must(kept: bool, refusal: i32) -> Answer<()> {
    if kept { Ok(()) } else { Err(refusal) }
}

/// What an order says. An absent picture stays absent: then the Rust has a
/// function of its own.
#[derive(Clone)]
pub struct Settings {
    pub screen: [f32; 2],
    pub picture: Option<Rect>,
    pub preset: Preset,
    pub cutouts: Vec<Rect>,
}

impl Settings {
    pub fn layout(&self) -> Layout {
        let [w, h] = self.screen;
        match self.picture {
            Some(picture) => self.preset.layout_in(w, h, &self.cutouts, picture),
            None => self.preset.layout_with_cutouts(w, h, &self.cutouts),
        }
    }
    /// The picture's area, as document 01 has it if it is absent.
    pub fn area(&self) -> Rect {
        let [w, h] = self.screen;
        (self.picture).unwrap_or(Rect::new(0., 0., w.max(1.), h.max(1.)))
    }
    pub fn viewport_layout(&self, [reusable_top, covered_top]: [f32; 2]) -> Layout {
        let viewport = PlayerViewport {
            controls: self.screen,
            picture: self.area(),
            reusable_top,
            covered_top,
        };
        viewport.layout(&self.preset, &self.cutouts)
    }
}

/// Each tag's length, or none if it holds rectangles, and how many then.
const TAGS: [(Option<usize>, usize); 7] = [
    (Some(8), 0),
    (Some(16), 0),
    (Some(1), 0),
    (Some(1), 0),
    (Some(12), 0),
    (None, 16),
    (None, 32),
];

/// The settings of an order: "the first faulty field decides".
pub fn read(order: &[u8]) -> Answer<Settings> {
    let mut screen = None;
    let mut settings = Settings {
        screen: [0.; 2],
        picture: None,
        preset: Preset {
            picture_fit: Some(PictureFit::Maximum),
            ..Preset::default()
        },
        cutouts: Vec::new(),
    };
    let (mut rest, mut before) = (order, 0);
    while !rest.is_empty() {
        let (&[tag, high, low], after) = rest.split_first_chunk().ok_or(CUT_OFF)?;
        must((1..=7).contains(&tag) && tag > before, OUT_OF_TURN)?;
        let length = usize::from(u16::from_be_bytes([high, low]));
        let (value, after) = after.split_at_checked(length).ok_or(CUT_OFF)?;
        let (exact, most) = TAGS[usize::from(tag) - 1];
        match exact {
            Some(exact) => must(length == exact, BAD_LENGTH)?,
            None => {
                must(length % 16 == 0, BAD_LENGTH)?;
                must(length / 16 <= most, OVERFULL)?;
            }
        }
        let preset = &mut settings.preset;
        match tag {
            1 => {
                let sides = limited(numbers(value))?;
                at_least_0(&sides)?;
                screen = Some(sides);
            }
            2 => {
                let numbers @ [x, y, w, h] = limited(numbers(value))?;
                at_least_0(&numbers[2..])?;
                settings.picture = Some(Rect::new(x, y, w, h));
            }
            3 => {
                must(value[0] < 8, ODD_MARK)?;
                preset.psp = value[0] & 1 != 0;
                preset.analog = value[0] & 2 != 0;
                preset.allow_overlap = value[0] & 4 != 0;
            }
            4 => {
                preset.picture_fit = match value[0] {
                    0 => None,
                    1 => Some(PictureFit::Maximum),
                    2 => Some(PictureFit::KeepClear),
                    _ => return Err(ODD_MARK),
                }
            }
            5 => {
                let [scale, across, down] = limited(numbers(value))?;
                preset.game_scale = scale;
                preset.game_offset = [across, down];
            }
            6 => {
                settings.cutouts = rects(value).collect();
                for r in &settings.cutouts {
                    limited([r.x, r.y, r.w, r.h])?;
                }
            }
            _ => preset.elements = rects(value).collect(),
        }
        (rest, before) = (after, tag);
    }
    settings.screen = screen.ok_or(NO_SCREEN)?;
    Ok(settings)
}

/// The numbers of a value, which has four bytes for each.
fn numbers<const N: usize>(value: &[u8]) -> [f32; N] {
    let (chunks, _) = value.as_chunks();
    std::array::from_fn(|i| f32::from_be_bytes(chunks[i]))
}

/// Numbers, if all of them are in the limits.
fn limited<const N: usize>(numbers: [f32; N]) -> Answer<[f32; N]> {
    must(numbers.iter().all(|n| n.abs() <= 8192.), OFF_THE_SCALE)?;
    Ok(numbers)
}

/// Refusal 6 of integers outside document 01's limits, which the Rust does not
/// have.
pub fn on_the_scale(integers: &[i32]) -> Answer<()> {
    must(
        integers.iter().all(|n| (-8192..=8192).contains(n)),
        OFF_THE_SCALE,
    )
}

fn at_least_0(numbers: &[f32]) -> Answer<()> {
    must(numbers.iter().all(|n| *n >= 0.), OFF_THE_SCALE)
}

pub fn rects(value: &[u8]) -> impl Iterator<Item = Rect> {
    let (rects, _) = value.as_chunks::<16>();
    rects.iter().map(|rect| {
        let [x, y, w, h] = numbers(rect);
        Rect::new(x, y, w, h)
    })
}

/// The value of a field that holds numbers.
pub fn number_bytes(numbers: impl IntoIterator<Item = f32>) -> Vec<u8> {
    numbers.into_iter().flat_map(f32::to_be_bytes).collect()
}

/// A field: its tag, its length, its value.
pub fn field(tag: u8, value: &[u8]) -> Vec<u8> {
    let length = value.len() as u16;
    [&[tag], &length.to_be_bytes()[..], value].concat()
}

/// Puts bytes at the front of `out`, which is left with those after them.
fn put<const N: usize>(out: &mut &mut [u8], bytes: [u8; N]) {
    let (front, rest) = std::mem::take(out).split_first_chunk_mut().expect("room");
    (*front, *out) = (bytes, rest);
}

fn put_head(out: &mut &mut [u8], tag: u8, length: usize) {
    let [high, low] = (length as u16).to_be_bytes();
    put(out, [tag, high, low]);
}

/// Negative zero as plus zero.
fn put_rect(out: &mut &mut [u8], r: Rect) {
    for n in [r.x, r.y, r.w, r.h] {
        put(out, if n == 0. { [0; 4] } else { n.to_be_bytes() });
    }
}

/// Writes a layout at the start of the lent bytes: how many there are.
pub fn write(layout: &Layout, out: &mut [u8]) -> Answer<usize> {
    let elements = layout.element_count();
    let (rects, masks) = (16 * elements, 2 * layout.controls.len());
    let length = 25 + rects + masks;
    let out = &mut out.get_mut(..length).ok_or(SHEET_TOO_SMALL)?;
    put_head(out, 1, 16);
    put_rect(out, layout.game);
    put_head(out, 2, rects);
    for i in 0..elements {
        put_rect(out, layout.element(i));
    }
    put_head(out, 3, masks);
    for control in &layout.controls {
        put(out, control.mask.to_be_bytes());
    }
    Ok(length)
}

/// A layout's bytes.
pub fn written(layout: &Layout) -> Vec<u8> {
    let mut out = vec![0; 353];
    let length = write(layout, &mut out).expect("the longest has 353");
    out.truncate(length);
    out
}

/// A function's answer, and the bytes lent to it as it leaves them: each was
/// `fill`.
pub fn lent<T>(length: usize, fill: u8, call: impl FnOnce(&mut [u8]) -> T) -> (T, Vec<u8>) {
    let mut out = vec![fill; length];
    let answer = call(&mut out);
    (answer, out)
}

/// How much is lent to a function, and looked at after it: more than any may
/// write to.
pub const ROOM: usize = 1088;

/// Bytes of an xorshift generator.
static NOISE: [u8; 65536 + ROOM] = {
    let (mut bytes, mut state, mut i) = ([0; 65536 + ROOM], 0x9E37_79B9_7F4A_7C15u64, 0);
    while i < bytes.len() {
        state ^= state << 13;
        state ^= state >> 7;
        state ^= state << 17;
        bytes[i] = (state >> 32) as u8;
        i += 1;
    }
    bytes
};

/// A function's answer, and all the bytes as it leaves them, of which it was
/// lent the first: each was noise.
pub fn lent_noise<T>(
    length: usize,
    start: u16,
    call: impl FnOnce(&mut [u8]) -> T,
) -> (T, [u8; ROOM]) {
    let mut out = [0; ROOM];
    out.copy_from_slice(&NOISE[usize::from(start)..][..ROOM]);
    (call(&mut out[..length]), out)
}

pub fn layout(order: &[u8], out: &mut [u8]) -> Answer<usize> {
    write(&read(order)?.layout(), out)
}

pub fn touch(order: &[u8], [x, y]: [f32; 2], previous: u16) -> Answer<u16> {
    Ok(native::mask_near(&read(order)?.layout(), x, y, previous))
}

pub fn viewport_layout(order: &[u8], tops: [f32; 2], out: &mut [u8]) -> Answer<usize> {
    write_viewport(&read(order)?, tops, out)
}

/// Writes the layout of a viewport with the settings of an order.
pub fn write_viewport(settings: &Settings, tops: [f32; 2], out: &mut [u8]) -> Answer<usize> {
    must(tops.iter().all(|n| n.abs() <= 8192.), OFF_THE_SCALE)?;
    at_least_0(&tops[..1])?;
    write(&settings.viewport_layout(tops), out)
}
