//! The functions of input.rs as functions of plain data. The build script
//! makes this file a child module of input.rs, which is `super` here.
mod data;
pub mod native;

pub use super::picture::access as picture;
use super::{Layout, PictureFit, PlayerViewport, Preset, Rect};
pub use data::{ControlData, LABELS, LayoutData};

pub fn contains(r: Rect, x: f32, y: f32) -> bool {
    r.contains(x, y)
}
pub fn fit(r: Rect, aspect: f32) -> Rect {
    r.fit(aspect)
}
pub fn overlaps(a: Rect, b: Rect) -> bool {
    a.overlaps(b)
}
pub fn same_bounds(a: Rect, b: Rect) -> bool {
    a.same_bounds(b)
}

pub fn safe_content(size: [i32; 2], inset_size: [i32; 2], edges: [i32; 4]) -> Rect {
    super::safe_content(size, inset_size, edges)
}
pub fn safe_edges(
    decoration: [i32; 4],
    navigation: [i32; 4],
    camera: [i32; 4],
    local_side_camera: bool,
) -> [i32; 4] {
    super::safe_edges(decoration, navigation, camera, local_side_camera)
}

pub fn clear_picture(w: f32, h: f32, obstacles: &[Rect]) -> Rect {
    super::clear_picture(w, h, obstacles)
}
pub fn clear_picture_aspect(w: f32, h: f32, obstacles: &[Rect], aspect: f32) -> Rect {
    super::clear_picture_aspect(w, h, obstacles, aspect)
}

pub fn new(w: f32, h: f32) -> LayoutData {
    Layout::new(w, h).into()
}
pub fn arranged(w: f32, h: f32, compact: bool) -> LayoutData {
    Layout::arranged(w, h, compact).into()
}
pub fn side_rails(w: f32, h: f32, picture_height: f32, cutouts: &[Rect]) -> LayoutData {
    Layout::side_rails(w, h, picture_height, cutouts).into()
}
pub fn default_with_cutouts(w: f32, h: f32, cutouts: &[Rect]) -> LayoutData {
    Layout::default_with_cutouts(w, h, cutouts).into()
}
pub fn default_in(w: f32, h: f32, cutouts: &[Rect], picture: Rect) -> LayoutData {
    Layout::default_in(w, h, cutouts, picture).into()
}
pub fn analog_default(w: f32, h: f32) -> LayoutData {
    Layout::analog_default(w, h).into()
}
pub fn psp(w: f32, h: f32) -> LayoutData {
    Layout::psp(w, h).into()
}
pub fn controller_band(
    w: f32,
    h: f32,
    analog: bool,
    psp: bool,
    picture: Rect,
) -> Option<LayoutData> {
    Layout::controller_band(w, h, analog, psp, picture).map(Into::into)
}
pub fn analog_camera_rails(
    w: f32,
    h: f32,
    picture: Rect,
    cutouts: &[Rect],
    psp: bool,
) -> Option<LayoutData> {
    Layout::analog_camera_rails(w, h, picture, cutouts, psp).map(Into::into)
}

pub fn element(layout: &LayoutData, index: usize) -> Rect {
    Layout::from(layout).element(index)
}
pub fn element_count(layout: &LayoutData) -> usize {
    Layout::from(layout).element_count()
}
pub fn controller_elements(layout: &LayoutData) -> Vec<usize> {
    Layout::from(layout).controller_elements().collect()
}
pub fn action_elements(layout: &LayoutData) -> Vec<usize> {
    Layout::from(layout).action_elements().collect()
}
pub fn action_bounds(layout: &LayoutData) -> Rect {
    Layout::from(layout).action_bounds()
}
pub fn mask_near(layout: &LayoutData, x: f32, y: f32, previous: u16) -> u16 {
    Layout::from(layout).mask_near(x, y, previous)
}

/// The layout after a function that changes it where it lies.
fn changed(layout: &LayoutData, change: impl FnOnce(&mut Layout)) -> LayoutData {
    let mut layout = Layout::from(layout);
    change(&mut layout);
    layout.into()
}
pub fn set_element(layout: &LayoutData, index: usize, rect: Rect) -> LayoutData {
    changed(layout, |l| l.set_element(index, rect))
}
pub fn psp_inputs(layout: &LayoutData) -> LayoutData {
    changed(layout, Layout::psp_inputs)
}
pub fn anchor_toolbar(
    layout: &LayoutData,
    w: f32,
    h: f32,
    reusable_top: f32,
    covered_top: f32,
    cutouts: &[Rect],
) -> LayoutData {
    changed(layout, |l| {
        l.anchor_toolbar(w, h, reusable_top, covered_top, cutouts)
    })
}
pub fn place_game(
    layout: &LayoutData,
    w: f32,
    h: f32,
    overlap: bool,
    scale: f32,
    offset: [f32; 2],
) -> LayoutData {
    changed(layout, |l| l.place_game(w, h, overlap, scale, offset))
}
pub fn place_game_in(
    layout: &LayoutData,
    bounds: Rect,
    overlap: bool,
    scale: f32,
    offset: [f32; 2],
) -> LayoutData {
    changed(layout, |l| l.place_game_in(bounds, overlap, scale, offset))
}
pub fn place_game_in_aspect(
    layout: &LayoutData,
    bounds: Rect,
    overlap: bool,
    scale: f32,
    offset: [f32; 2],
    aspect: f32,
) -> LayoutData {
    changed(layout, |l| {
        l.place_game_in_aspect(bounds, overlap, scale, offset, aspect)
    })
}
pub fn fit_landscape_controls(
    layout: &LayoutData,
    w: f32,
    h: f32,
    picture: Rect,
    aspect: f32,
) -> LayoutData {
    changed(layout, |l| l.fit_landscape_controls(w, h, picture, aspect))
}
pub fn avoid_cutouts(layout: &LayoutData, w: f32, h: f32, cutouts: &[Rect]) -> LayoutData {
    changed(layout, |l| l.avoid_cutouts(w, h, cutouts))
}

pub fn picture_fit(preset: &Preset) -> PictureFit {
    preset.picture_fit()
}
pub fn layout_in(preset: &Preset, w: f32, h: f32, cutouts: &[Rect], picture: Rect) -> LayoutData {
    preset.layout_in(w, h, cutouts, picture).into()
}
pub fn layout_with_cutouts(preset: &Preset, w: f32, h: f32, cutouts: &[Rect]) -> LayoutData {
    preset.layout_with_cutouts(w, h, cutouts).into()
}
/// The preset after `capture`.
pub fn capture(preset: &Preset, layout: &LayoutData, w: f32, h: f32) -> Preset {
    let mut preset = preset.clone();
    preset.capture(&layout.into(), w, h);
    preset
}
pub fn viewport_layout(viewport: PlayerViewport, preset: &Preset, cutouts: &[Rect]) -> LayoutData {
    viewport.layout(preset, cutouts).into()
}
