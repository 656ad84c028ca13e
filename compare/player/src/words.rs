//! Values as words of a line: an f32 is its bits in 8 hexadecimal digits, a
//! byte has 2 of them, any other number is decimal, a list is its count and its
//! items, an optional value is 0, or 1 and the value, a value that may be
//! refused is 0 and the value, or the refusal's number.
use crate::access::{ControlData, LABELS, LayoutData};
use crate::order::writer::Given;
use crate::tracker::{ACTS, Act};
use crate::{PictureFit, PlayerViewport, Preset, Rect};
use std::fmt;

#[derive(Clone, Copy, Debug)]
pub enum Word {
    Float(f32),
    Byte(u8),
    Number(i64),
}

impl Word {
    /// Equal as numbers: zeros without their sign, and any NaN equals any NaN.
    pub fn same(self, other: Self) -> bool {
        match (self, other) {
            (Self::Float(a), Self::Float(b)) => a == b || a.is_nan() && b.is_nan(),
            (Self::Byte(a), Self::Byte(b)) => a == b,
            (Self::Number(a), Self::Number(b)) => a == b,
            _ => false,
        }
    }
}

impl fmt::Display for Word {
    fn fmt(&self, f: &mut fmt::Formatter) -> fmt::Result {
        match self {
            Self::Float(x) => write!(f, "{:08X}", x.to_bits()),
            Self::Byte(b) => write!(f, "{b:02X}"),
            Self::Number(n) => write!(f, "{n}"),
        }
    }
}

/// The words of a line not yet read.
pub type Rest<'a> = std::str::SplitWhitespace<'a>;

pub trait Value: Sized {
    /// What the help calls the type.
    fn kind() -> String;
    fn put(&self, words: &mut Vec<Word>);
    fn take(rest: &mut Rest) -> Result<Self, String>;
    /// Whether it is more than `none` or `false`.
    fn some(&self) -> bool {
        true
    }
}

/// The words of a value.
pub fn words(value: &impl Value) -> Vec<Word> {
    let mut words = Vec::new();
    value.put(&mut words);
    words
}

/// Words as a line of text.
pub fn line(words: &[Word]) -> String {
    let words: Vec<_> = words.iter().map(Word::to_string).collect();
    words.join(" ")
}

fn next<'a>(rest: &mut Rest<'a>, kind: &str) -> Result<&'a str, String> {
    rest.next().ok_or_else(|| format!("{kind} is missing"))
}

/// A word of so many hexadecimal digits.
fn digits(rest: &mut Rest, kind: &str, count: usize) -> Result<u32, String> {
    let word = next(rest, kind)?;
    if word.len() != count || !word.bytes().all(|b| b.is_ascii_hexdigit()) {
        return Err(format!(
            "{word} is not {kind} in {count} hexadecimal digits"
        ));
    }
    u32::from_str_radix(word, 16).map_err(|e| e.to_string())
}

impl Value for f32 {
    fn kind() -> String {
        "f32".into()
    }
    fn put(&self, words: &mut Vec<Word>) {
        words.push(Word::Float(*self));
    }
    fn take(rest: &mut Rest) -> Result<Self, String> {
        digits(rest, "an f32", 8).map(f32::from_bits)
    }
}

impl Value for u8 {
    fn kind() -> String {
        "byte".into()
    }
    fn put(&self, words: &mut Vec<Word>) {
        words.push(Word::Byte(*self));
    }
    fn take(rest: &mut Rest) -> Result<Self, String> {
        digits(rest, "a byte", 2).map(|byte| byte as u8)
    }
}

macro_rules! whole_numbers {
    ($($kind:ident)*) => {$(
        impl Value for $kind {
            fn kind() -> String {
                stringify!($kind).into()
            }
            fn put(&self, words: &mut Vec<Word>) {
                words.push(Word::Number(*self as i64));
            }
            fn take(rest: &mut Rest) -> Result<Self, String> {
                let word = next(rest, stringify!($kind))?;
                word.parse().map_err(|e| format!("{word}: {e}"))
            }
        }
    )*};
}
whole_numbers! { u16 i32 usize }

/// A whole number below `limit`.
fn below(limit: usize, rest: &mut Rest) -> Result<usize, String> {
    let n = usize::take(rest)?;
    if n < limit {
        Ok(n)
    } else {
        Err(format!("{n} is not below {limit}"))
    }
}

impl Value for bool {
    fn kind() -> String {
        "bool".into()
    }
    fn put(&self, words: &mut Vec<Word>) {
        words.push(Word::Number(*self as i64));
    }
    fn take(rest: &mut Rest) -> Result<Self, String> {
        Ok(below(2, rest)? == 1)
    }
    fn some(&self) -> bool {
        *self
    }
}

impl<T: Value, const N: usize> Value for [T; N] {
    fn kind() -> String {
        format!("{N}*{}", T::kind())
    }
    fn put(&self, words: &mut Vec<Word>) {
        self.iter().for_each(|item| item.put(words));
    }
    fn take(rest: &mut Rest) -> Result<Self, String> {
        let items: Vec<T> = (0..N).map(|_| T::take(rest)).collect::<Result<_, _>>()?;
        items
            .try_into()
            .map_err(|_| unreachable!("N items were read"))
    }
}

impl<T: Value> Value for Vec<T> {
    fn kind() -> String {
        format!("list({})", T::kind())
    }
    fn put(&self, words: &mut Vec<Word>) {
        self.len().put(words);
        self.iter().for_each(|item| item.put(words));
    }
    fn take(rest: &mut Rest) -> Result<Self, String> {
        (0..usize::take(rest)?).map(|_| T::take(rest)).collect()
    }
}

impl<T: Value> Value for Option<T> {
    fn kind() -> String {
        format!("option({})", T::kind())
    }
    fn put(&self, words: &mut Vec<Word>) {
        self.is_some().put(words);
        self.iter().for_each(|value| value.put(words));
    }
    fn take(rest: &mut Rest) -> Result<Self, String> {
        bool::take(rest)?.then(|| T::take(rest)).transpose()
    }
    fn some(&self) -> bool {
        self.is_some()
    }
}

impl<T: Value> Value for Result<T, i32> {
    fn kind() -> String {
        format!("refusable({})", T::kind())
    }
    fn put(&self, words: &mut Vec<Word>) {
        match self {
            Ok(value) => {
                0i32.put(words);
                value.put(words);
            }
            Err(refusal) => refusal.put(words),
        }
    }
    fn take(rest: &mut Rest) -> Result<Self, String> {
        match i32::take(rest)? {
            0 => T::take(rest).map(Ok),
            refusal => Ok(Err(refusal)),
        }
    }
}

/// A record or a tuple is its fields in order.
macro_rules! fields {
    ($($record:ident as $kind:literal { $($field:ident),* } $($default:expr)?;)*) => {$(
        impl Value for $record {
            fn kind() -> String {
                $kind.into()
            }
            fn put(&self, words: &mut Vec<Word>) {
                $(self.$field.put(words);)*
            }
            fn take(rest: &mut Rest) -> Result<Self, String> {
                Ok(Self { $($field: Value::take(rest)?,)* $(..$default)? })
            }
        }
    )*};
}
fields! {
    Rect as "rect" { x, y, w, h };
    LayoutData as "layout" { game, dpad, controls, pause, playback, speed, mute, sticks };
    Preset as "preset" {
        psp, analog, allow_overlap, picture_fit, game_scale, game_offset, elements
    } Preset::default();
    Given as "settings" { numbers, mode, fit, cutouts, saved };
    PlayerViewport as "viewport" { controls, picture, reusable_top, covered_top };
}

macro_rules! tuples {
    ($(($($part:ident $index:tt)*))*) => {$(
        impl<$($part: Value),*> Value for ($($part,)*) {
            fn kind() -> String {
                [$($part::kind()),*].join(" ")
            }
            fn put(&self, words: &mut Vec<Word>) {
                $(self.$index.put(words);)*
            }
            fn take(rest: &mut Rest) -> Result<Self, String> {
                Ok(($($part::take(rest)?,)*))
            }
        }
    )*};
}
tuples! {
    (A 0)
    (A 0 B 1)
    (A 0 B 1 C 2)
    (A 0 B 1 C 2 D 3)
    (A 0 B 1 C 2 D 3 E 4)
    (A 0 B 1 C 2 D 3 E 4 F 5)
}

impl Value for Act {
    fn kind() -> String {
        "press, move or lift: 0, 1, 2".into()
    }
    fn put(&self, words: &mut Vec<Word>) {
        (*self as usize).put(words);
    }
    fn take(rest: &mut Rest) -> Result<Self, String> {
        Ok(ACTS[below(ACTS.len(), rest)?])
    }
}

impl Value for ControlData {
    fn kind() -> String {
        "control".into()
    }
    fn put(&self, words: &mut Vec<Word>) {
        self.bounds.put(words);
        self.label.put(words);
    }
    fn take(rest: &mut Rest) -> Result<Self, String> {
        Ok(Self {
            bounds: Value::take(rest)?,
            label: below(LABELS.len(), rest)?,
        })
    }
}

/// 1 Maximum, 2 KeepClear, as in tag 4 of an order.
impl Value for PictureFit {
    fn kind() -> String {
        "fit".into()
    }
    fn put(&self, words: &mut Vec<Word>) {
        words.push(Word::Number(match self {
            Self::Maximum => 1,
            Self::KeepClear => 2,
        }));
    }
    fn take(rest: &mut Rest) -> Result<Self, String> {
        match next(rest, "fit")? {
            "1" => Ok(Self::Maximum),
            "2" => Ok(Self::KeepClear),
            word => Err(format!("{word} is not a fit, 1 or 2")),
        }
    }
}
