//! The calls of crates/corner_cases/data/functions.txt, each answered as
//! document 01 says.
use crate::{cases::cases, steps};
use check::{masks, nearest::nearest_hypot};
use player::{
    Rect,
    access::{self, ControlData, LABELS, LayoutData, picture},
    order::{Answer, on_the_scale},
};

/// The functions; a list has their places here, from 1 on.
const FUNCTIONS: [&str; 16] = [
    "min",
    "max",
    "clamp",
    "abs",
    "hypot",
    "contains",
    "overlaps",
    "safe_content",
    "safe_edges",
    "clear_picture_aspect",
    "controller_band",
    "anchor_toolbar",
    "vertical",
    "controls",
    "fits",
    "mask_near",
];
/// The elements of a layout that may be asked for; a list has their places here.
const ELEMENTS: [&str; 6] = ["dpad", "pause", "playback", "speed", "mute", "stick"];
/// Stands for none where a refusal has its number.
const NONE: i32 = 255;

/// What a function answers: a mask, or 1 for true and 0 for false; or one f32
/// or a rectangle.
#[derive(Debug)]
enum Value {
    Number(u16),
    Floats(Vec<f32>),
}

impl From<bool> for Value {
    fn from(truth: bool) -> Self {
        Self::Number(truth.into())
    }
}
impl From<f32> for Value {
    fn from(n: f32) -> Self {
        Self::Floats(vec![n])
    }
}
impl From<Rect> for Value {
    fn from(r: Rect) -> Self {
        Self::Floats(vec![r.x, r.y, r.w, r.h])
    }
}

/// How many bytes a step has for arguments or a name, for the rectangle of the
/// answer, and for a function's number and the number of the answer.
const PARTS: [usize; 3] = [96, 16, 4];

/// The list of the calls (README.md beside the text). It panics where the Rust
/// answers otherwise than the text.
pub fn list(text: &str) -> Vec<u8> {
    let mut list = Vec::new();
    for (name, lines) in cases(text) {
        lines.iter().for_each(|line| list.extend(call(name, line)));
        list.extend(step(name.as_bytes(), &[], &[0, name.len() as u8]));
    }
    list
}

/// Each part with zeros after its end.
fn step(arguments: &[u8], rect: &[u8], numbers: &[u8]) -> Vec<u8> {
    let padded = |(part, length): (&[u8], usize)| {
        assert!(part.len() <= length, "too long");
        [part, &vec![0; length - part.len()]].concat()
    };
    let parts = [arguments, rect, numbers].into_iter().zip(PARTS);
    parts.flat_map(padded).collect()
}

fn call(name: &str, line: &str) -> Vec<u8> {
    let line = line.replace(['[', ']'], " ");
    let (asked, want) = line.split_once('=').expect("an answer");
    let asked: Vec<&str> = asked.split_whitespace().collect();
    let mut want: Vec<&str> = want.split_whitespace().collect();
    let place = |names: &[&str], name| names.iter().position(|n| *n == name);
    let function = place(&FUNCTIONS, asked[0]).expect(name);
    let element = place(&ELEMENTS, want[0]);
    if element.is_some() {
        want.remove(0);
    }
    let mut arguments = Arguments {
        text: &asked[1..],
        words: Vec::new(),
        element: element.unwrap_or(0),
    };
    let got = answer(asked[0], &mut arguments);
    assert!(arguments.text.is_empty(), "{name}: too many arguments");
    let want = wanted(asked[0], &want);
    // The sign of the zero is open in Rust's pages of min and max, and nowhere else.
    let open = ["min", "max"].contains(&asked[0]);
    assert!(same(&got, &want, open), "{name}: {got:?}");
    let (number, floats) = match want {
        Ok(Value::Number(n)) => (Ok(n), Vec::new()),
        Ok(Value::Floats(floats)) => (Ok(0), floats),
        Err(refusal) => (Err(refusal), Vec::new()),
    };
    let bytes = |words: &[u32]| {
        words
            .iter()
            .flat_map(|w| w.to_be_bytes())
            .collect::<Vec<_>>()
    };
    let floats: Vec<u32> = floats.into_iter().map(f32::to_bits).collect();
    let mut numbers = steps::number(number).to_be_bytes();
    numbers[0] = function as u8 + 1;
    step(&bytes(&arguments.words), &bytes(&floats), &numbers)
}

fn same(a: &Answer<Value>, b: &Answer<Value>, open: bool) -> bool {
    match (a, b) {
        (Ok(Value::Number(a)), Ok(Value::Number(b))) => a == b,
        (Ok(Value::Floats(a)), Ok(Value::Floats(b))) => {
            let same = |(a, b): (&f32, &f32)| a.to_bits() == b.to_bits() || open && a == b;
            a.len() == b.len() && a.iter().zip(b).all(same)
        }
        (Err(a), Err(b)) => a == b,
        _ => false,
    }
}

/// The answer that the text has.
fn wanted(function: &str, text: &[&str]) -> Answer<Value> {
    let float = |text: &&str| text.parse().expect("a number");
    match *text {
        ["none"] => Err(NONE),
        ["refusal", number] => Err(number.parse().expect("a refusal")),
        ["true"] => Ok(true.into()),
        ["false"] => Ok(false.into()),
        [mask] if function == "mask_near" => Ok(Value::Number(mask.parse().expect("a mask"))),
        ref floats => Ok(Value::Floats(floats.iter().map(float).collect())),
    }
}

/// The answer that the Rust gives.
fn answer(function: &str, a: &mut Arguments) -> Answer<Value> {
    let value = match function {
        "min" => a.float().min(a.float()).into(),
        "max" => a.float().max(a.float()).into(),
        "clamp" => a.float().clamp(a.float(), a.float()).into(),
        "abs" => a.float().abs().into(),
        "hypot" => nearest_hypot(a.float(), a.float()).into(),
        "contains" => access::contains(a.rect(), a.float(), a.float()).into(),
        "overlaps" => access::overlaps(a.rect(), a.rect()).into(),
        "safe_content" => safe_content(a)?.into(),
        "safe_edges" => safe_edges(a)?.into(),
        "clear_picture_aspect" => {
            let [w, h, aspect] = a.floats();
            access::clear_picture_aspect(w, h, &a.rects(), aspect).into()
        }
        "fits" => {
            let ([w, h], game) = (a.floats(), a.rect());
            picture::fits(&a.layout(), w, h, game, &[]).into()
        }
        "mask_near" => Value::Number(mask_near(a)),
        _ => element(function, a)?.into(),
    };
    Ok(value)
}

fn safe_content(a: &mut Arguments) -> Answer<Rect> {
    let (size, inset_size, edges) = (a.wholes(), a.wholes(), a.wholes());
    on_the_scale(&[&size[..], &inset_size, &edges].concat())?;
    Ok(access::safe_content(size, inset_size, edges))
}

/// The edges as a rectangle's numbers.
fn safe_edges(a: &mut Arguments) -> Answer<Rect> {
    let edges = [a.wholes::<4>(), a.wholes(), a.wholes()];
    let local = a.flag();
    on_the_scale(&edges.concat())?;
    let [decoration, navigation, camera] = edges;
    let [x, y, w, h] = access::safe_edges(decoration, navigation, camera, local).map(|n| n as f32);
    Ok(Rect::new(x, y, w, h))
}

/// Here the Rust's answer does not depend on which hypot it takes.
fn mask_near(a: &mut Arguments) -> u16 {
    let [x, y] = a.floats();
    let previous = a.whole() as u16;
    let layout = a.layout();
    let mask = access::mask_near(&layout, x, y, previous);
    let nearest = masks::mask_near(&layout, [x, y], previous, nearest_hypot);
    assert_eq!(mask, nearest, "a tie of hypot");
    mask
}

/// The element of a layout that the call asks for.
fn element(function: &str, a: &mut Arguments) -> Answer<Rect> {
    a.words.push(a.element as u32);
    let [w, h] = a.floats();
    let layout = match function {
        "anchor_toolbar" => {
            let [reusable_top, covered_top] = a.floats();
            let layout = access::arranged(w, h, false);
            let cutouts = a.rects();
            Some(access::anchor_toolbar(
                &layout,
                w,
                h,
                reusable_top,
                covered_top,
                &cutouts,
            ))
        }
        _ => {
            let [analog, psp] = a.mode();
            match function {
                "controller_band" => access::controller_band(w, h, analog, psp, a.rect()),
                "vertical" => picture::vertical(w, h, a.rect(), a.rect(), analog, psp),
                _ => picture::controls(w, h, a.rect(), analog, psp, &[]),
            }
        }
    };
    let l = layout.ok_or(NONE)?;
    let stick = l.sticks.first().copied().unwrap_or_default();
    Ok([l.dpad, l.pause, l.playback, l.speed, l.mute, stick][a.element])
}

/// The arguments of a call: those not yet read, and the words of those that
/// were.
struct Arguments<'a> {
    text: &'a [&'a str],
    words: Vec<u32>,
    /// Which of a layout's elements is asked for.
    element: usize,
}

impl<'a> Arguments<'a> {
    fn next(&mut self) -> &'a str {
        let (first, rest) = self.text.split_first().expect("an argument");
        self.text = rest;
        first
    }
    fn float(&mut self) -> f32 {
        let n: f32 = self.next().parse().expect("a number");
        self.words.push(n.to_bits());
        n
    }
    fn floats<const N: usize>(&mut self) -> [f32; N] {
        [(); N].map(|()| self.float())
    }
    /// Its sign is the high bit, as an f32's is.
    fn whole(&mut self) -> i32 {
        let n: i32 = self.next().parse().expect("a whole number");
        self.words
            .push((n < 0) as u32 * 0x8000_0000 + n.unsigned_abs());
        n
    }
    fn wholes<const N: usize>(&mut self) -> [i32; N] {
        [(); N].map(|()| self.whole())
    }
    fn flag(&mut self) -> bool {
        let flag = self.next().parse().expect("true or false");
        self.words.push(flag as u32);
        flag
    }
    /// Whether it is analog, and whether psp.
    fn mode(&mut self) -> [bool; 2] {
        let flags = match self.next() {
            "standard" => [false, false],
            "analog" => [true, false],
            "psp" => [false, true],
            mode => panic!("no mode: {mode}"),
        };
        self.words.extend(flags.map(u32::from));
        flags
    }
    fn rect(&mut self) -> Rect {
        let [x, y, w, h] = self.floats();
        Rect::new(x, y, w, h)
    }
    /// All that are left, and before them how many.
    fn rects(&mut self) -> Vec<Rect> {
        let count = self.text.len() / 4;
        self.words.push(count as u32);
        (0..count).map(|_| self.rect()).collect()
    }
    /// A rectangle that is left out unless its name stands before it.
    fn named(&mut self, name: &str) -> Rect {
        if self.text.first() == Some(&name) {
            self.next();
            return self.rect();
        }
        self.words.extend([0; 4]);
        Rect::default()
    }
    fn control(&mut self) -> ControlData {
        let name = self.text.first().copied().unwrap_or("");
        let label = LABELS.iter().position(|(label, _)| *label == name);
        let label = label.unwrap_or(9);
        self.words.push(label as u32);
        ControlData {
            bounds: self.named(LABELS[label].0),
            label,
        }
    }
    fn layout(&mut self) -> LayoutData {
        let dpad = self.named("dpad");
        let controls = vec![self.control(), self.control()];
        let keys = self.named("keys");
        LayoutData {
            game: keys,
            dpad,
            controls,
            pause: keys,
            playback: keys,
            speed: keys,
            mute: keys,
            sticks: Vec::new(),
        }
    }
}
