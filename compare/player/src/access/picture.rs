//! The functions of input/picture.rs as functions of plain data. The build
//! script makes this file a child module of picture.rs, which is `super` here.
use super::super::access::LayoutData;
use super::{Layout, Rect};

pub fn diamond(layout: &LayoutData, rect: Rect) -> LayoutData {
    let mut layout = Layout::from(layout);
    super::diamond(&mut layout, rect);
    layout.into()
}
pub fn auxiliary(
    layout: &LayoutData,
    left: Rect,
    right: Rect,
    shoulders: f32,
    system: f32,
) -> LayoutData {
    let mut layout = Layout::from(layout);
    super::auxiliary(&mut layout, left, right, shoulders, system);
    layout.into()
}
pub fn vertical(
    w: f32,
    h: f32,
    left: Rect,
    right: Rect,
    analog: bool,
    psp: bool,
) -> Option<LayoutData> {
    super::vertical(w, h, left, right, analog, psp).map(Into::into)
}
pub fn horizontal(w: f32, h: f32, band: Rect, analog: bool, psp: bool) -> Option<LayoutData> {
    super::horizontal(w, h, band, analog, psp).map(Into::into)
}
pub fn fits(layout: &LayoutData, w: f32, h: f32, game: Rect, holes: &[Rect]) -> bool {
    super::fits(&layout.into(), w, h, game, holes)
}
pub fn controls(
    w: f32,
    h: f32,
    game: Rect,
    analog: bool,
    psp: bool,
    holes: &[Rect],
) -> Option<LayoutData> {
    super::controls(w, h, game, analog, psp, holes).map(Into::into)
}
