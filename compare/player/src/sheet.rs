//! The film sheet as document 01 has it, with the edges of document 02's W-202,
//! of the layout that the Rust gives.
use crate::access::native::Layout;
use crate::exact::Exact;
use crate::order::{self, Answer};

/// The nearest whole number to ten times the exact x + w, halves upward, of any
/// finite numbers. It panics if an i128 does not hold that: from 1.7e37 on.
pub fn edge(x: f32, w: f32) -> i128 {
    let [x, w] = [x, w].map(|n| Exact::of(n).expect("a finite number"));
    ((x + w).times(10) + Exact::HALF).floor()
}

/// The lines of a layout, after their number.
fn lines(layout: &Layout) -> String {
    let count = layout.element_count();
    let labels = layout.controls.iter().map(|c| c.label);
    let names = ["GAME", "DPAD"].into_iter().chain(labels);
    let names = names.chain(["PAUSE", "PLAY", "SPEED", "MUTE", "LEFT", "RIGHT"]);
    let elements = (0..count).map(|i| layout.element(i));
    let rects = std::iter::once(layout.game).chain(elements);
    let mut text = format!("FILM {}\n", count + 1);
    for (name, r) in names.zip(rects) {
        text += name;
        let [x, y] = [r.x, r.y].map(|n| edge(n, 0.));
        let [right, bottom] = [edge(r.x, r.w), edge(r.y, r.h)];
        for number in [x, y, right - x, bottom - y] {
            text.push(' ');
            text += &number.to_string();
        }
        text.push('\n');
    }
    text
}

/// The sheet of an order's layout, or of its refusal.
pub fn sheet(layout: Answer<&Layout>) -> String {
    match layout {
        Ok(layout) => lines(layout),
        Err(refusal) => format!("REFUSED {refusal}\n"),
    }
}

/// The sheet of an order: 1,024 bytes, zeros after its end, and its length.
pub fn film_sheet(order: &[u8]) -> ([u8; 1024], usize) {
    let layout = order::read(order).map(|settings| settings.layout());
    padded(&sheet(layout.as_ref().map_err(|refusal| *refusal)))
}

/// A text with zeros after its end, and its length.
pub fn padded(text: &str) -> ([u8; 1024], usize) {
    let mut bytes = [0; 1024];
    bytes[..text.len()].copy_from_slice(text.as_bytes());
    (bytes, text.len())
}
