//! Button masks: `mask_near` of input.rs with hypot as an argument, since the
//! Rust's own has the platform's, which is not the nearest.
use player::{
    Rect,
    access::{LABELS, LayoutData},
};

pub fn mask_near(
    layout: &LayoutData,
    [x, y]: [f32; 2],
    previous: u16,
    hypot: fn(f32, f32) -> f32,
) -> u16 {
    // Labels 0 to 3 are the face buttons.
    let faces = layout.controls.iter().filter(|c| c.label < 4);
    let others = layout.controls.iter().filter(|c| c.label >= 4);
    let mask = |label: usize| 1u16 << LABELS[label].1;
    let from_centre = |r: Rect| [x - r.x - r.w / 2., y - r.y - r.h / 2.];

    let mut result = 0;
    let [dx, dy] = from_centre(layout.dpad);
    if layout.dpad.contains(x, y) && hypot(dx, dy) > layout.dpad.w * 0.09 {
        let diagonal = std::f32::consts::SQRT_2 - 1.;
        if dx.abs() >= dy.abs() * diagonal {
            result |= if dx < 0. { 1 << 6 } else { 1 << 7 };
        }
        if dy.abs() >= dx.abs() * diagonal {
            result |= if dy < 0. { 1 << 4 } else { 1 << 5 };
        }
    }
    let held = others.clone().filter(|c| c.bounds.contains(x, y));
    result = held.fold(result, |result, c| result | mask(c.label));

    let keys = [layout.pause, layout.playback, layout.speed, layout.mute];
    let free = ![layout.game, layout.dpad]
        .into_iter()
        .chain(keys)
        .chain(others.map(|c| c.bounds))
        .any(|r| r.contains(x, y));
    let mut nearest = (f32::INFINITY, 0);
    for c in faces {
        let r = c.bounds;
        let margin = (r.w.min(r.h) * 0.15).min(10.);
        let target = Rect::new(
            r.x - margin,
            r.y - margin,
            r.w + 2. * margin,
            r.h + 2. * margin,
        );
        if r.contains(x, y) || free && target.contains(x, y) {
            let [dx, dy] = from_centre(r);
            let less = if previous & mask(c.label) != 0 {
                6.
            } else {
                0.
            };
            let distance = hypot(dx, dy) - less;
            if distance < nearest.0 {
                nearest = (distance, mask(c.label));
            }
        }
    }
    result | nearest.1
}

/// What a touch presses; if more than one, the first of these.
pub fn pressed(mask: u16) -> &'static str {
    match mask {
        0 => "no bits",
        _ if mask & 0xF0 != 0 => "d-pad",
        _ if mask & 0x303 != 0 => "face button",
        _ => "other button",
    }
}
