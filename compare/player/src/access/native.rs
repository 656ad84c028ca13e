//! Private functions on the source's own layouts: for timing, without the
//! conversion to and from plain data.
pub use super::super::Layout;
use super::Rect;

pub fn mask_near(layout: &Layout, x: f32, y: f32, previous: u16) -> u16 {
    layout.mask_near(x, y, previous)
}
pub fn arranged(w: f32, h: f32, compact: bool) -> Layout {
    Layout::arranged(w, h, compact)
}
pub fn side_rails(w: f32, h: f32, picture_height: f32, cutouts: &[Rect]) -> Layout {
    Layout::side_rails(w, h, picture_height, cutouts)
}
pub fn controller_band(
    w: f32,
    h: f32,
    analog: bool,
    psp: bool,
    picture: Rect,
) -> Option<Layout> {
    Layout::controller_band(w, h, analog, psp, picture)
}
