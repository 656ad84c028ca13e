//! The platform's hypot against the nearest. They may differ: this shows how
//! often, and exercises the driver.
use crate::{
    driver::{Comparison, compare},
    generate::signed,
    nearest::nearest_hypot,
    random::Random,
};

type Pair = fn(&mut Random) -> (f32, f32);

/// The kinds of pairs, each as the name of its comparison.
pub const KINDS: [(&str, Pair); 5] = [
    ("hypot ordinary", |r| {
        (r.between(-8192., 8192.), r.between(-8192., 8192.))
    }),
    ("hypot subnormal", |r| {
        (signed(r, 0, 0x00FF_FFFF), signed(r, 0, 0x00FF_FFFF))
    }),
    ("hypot huge", |r| {
        (
            signed(r, 0x7E00_0000, 0x7F7F_FFFF),
            signed(r, 0x7D00_0000, 0x7F7F_FFFF),
        )
    }),
    ("hypot uniform", |r| {
        (
            f32::from_bits(r.bits() as u32),
            f32::from_bits(r.bits() as u32),
        )
    }),
    ("hypot near-tie", near_tie),
];

/// A pair whose root lies very near a midpoint of two f32: b is the f32
/// nearest the other side of a triangle with the midpoint as its root, or one
/// next to it. The smaller b is against a, the nearer the tie.
fn near_tie(r: &mut Random) -> (f32, f32) {
    let a = signed(r, 0x2000_0000, 0x6000_0000).abs();
    let step = f64::from(a.next_up()) - f64::from(a);
    let digits = r.below(20);
    let steps = r.below(1 << digits) as f64 + 0.5;
    let b = (steps * step * (2. * f64::from(a) + steps * step)).sqrt() as f32;
    let b = r.pick(&[b, b, b.next_up(), b.next_down()]);
    let (a, b) = if r.yes() { (a, b) } else { (b, a) };
    (if r.yes() { a } else { -a }, if r.yes() { b } else { -b })
}

pub fn comparisons() -> impl Iterator<Item = Comparison> {
    KINDS.into_iter().map(|(name, pair)| {
        compare(
            name,
            pair,
            |&(a, b)| nearest_hypot(a, b),
            |&(a, b)| a.hypot(b),
        )
        .may_differ()
    })
}
