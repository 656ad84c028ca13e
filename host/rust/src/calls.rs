//! The library's functions. host/include/thumb_layout.h says what each
//! pointer, length and answer is.
use crate::{Rect, Refusal, Tracker};

/// Two masks, or minus a refusal in both.
#[repr(C)]
struct Masks {
    mask: i32,
    combined: i32,
}

unsafe extern "C" {
    fn tl_layout(order: *const u8, order_len: usize, out: *mut u8, out_len: usize) -> i32;
    fn tl_touch(order: *const u8, order_len: usize, x: f32, y: f32, previous: u16) -> i32;
    fn tl_press(
        t: &mut Tracker,
        order: *const u8,
        order_len: usize,
        finger: u8,
        x: f32,
        y: f32,
    ) -> Masks;
    fn tl_move(
        t: &mut Tracker,
        order: *const u8,
        order_len: usize,
        finger: u8,
        x: f32,
        y: f32,
    ) -> Masks;
    fn tl_lift(t: &mut Tracker, order: *const u8, order_len: usize, finger: u8) -> Masks;
    fn tl_viewport_layout(
        order: *const u8,
        order_len: usize,
        reusable_top: f32,
        covered_top: f32,
        out: *mut u8,
        out_len: usize,
    ) -> i32;
    fn tl_film(order: *const u8, order_len: usize, sheet: &mut [u8; 1024]) -> i32;
    fn tl_write_order(
        numbers: &[f32; 9],
        mode: u8,
        fit: u8,
        cutouts: *const f32,
        cutouts_len: usize,
        saved: *const f32,
        saved_len: usize,
        out: *mut u8,
        out_len: usize,
    ) -> i32;
    safe fn tl_safe_content(numbers: &[i32; 8], area: &mut [f32; 4]) -> i32;
    safe fn tl_safe_edges(numbers: &[i32; 12], local_side_camera: u8, edges: &mut [i32; 4]) -> i32;
}

/// A number that is not below 0, or the refusal that it is minus the number of.
fn answer(number: i32) -> Result<u32, Refusal> {
    u32::try_from(number).map_err(|_| {
        let found = Refusal::ALL
            .into_iter()
            .find(|r| i32::from(r.number()) == -number);
        found.expect("an answer below 0 is minus a refusal")
    })
}

/// Writes the layout of an order to the start of `out`, and gives the number
/// of bytes: 285, for analog 353, for a psp 265. Later bytes stay.
pub fn layout(order: &[u8], out: &mut [u8]) -> Result<usize, Refusal> {
    // SAFETY: each pointer is passed with the length of what it points to.
    let number = unsafe { tl_layout(order.as_ptr(), order.len(), out.as_mut_ptr(), out.len()) };
    Ok(answer(number)? as usize)
}

/// The mask of the buttons that a touch at any point presses on the layout of
/// an order; `previous` is the mask of the touch before.
pub fn touch(order: &[u8], x: f32, y: f32, previous: u16) -> Result<u16, Refusal> {
    // SAFETY: the pointer is passed with the length of what it points to.
    let number = unsafe { tl_touch(order.as_ptr(), order.len(), x, y, previous) };
    Ok(answer(number)? as u16)
}

/// Masks that are not below 0, or the refusal.
fn masks(number: Masks) -> Result<crate::Masks, Refusal> {
    Ok(crate::Masks {
        mask: answer(number.mask)? as u16,
        combined: answer(number.combined)? as u16,
    })
}

impl Tracker {
    /// Puts a finger down at any point on the layout of an order: its mask is
    /// that of a touch there whose previous mask is 0.
    ///
    /// After the order's refusals come [`Refusal::NoSuchFinger`] and, of a held
    /// finger, [`Refusal::WrongState`].
    pub fn press(
        &mut self,
        order: &[u8],
        finger: u8,
        x: f32,
        y: f32,
    ) -> Result<crate::Masks, Refusal> {
        // SAFETY: the pointer is passed with the length of what it points to.
        masks(unsafe { tl_press(self, order.as_ptr(), order.len(), finger, x, y) })
    }

    /// Moves a held finger; the previous mask is its own last one. One that is
    /// not held is [`Refusal::WrongState`].
    pub fn move_to(
        &mut self,
        order: &[u8],
        finger: u8,
        x: f32,
        y: f32,
    ) -> Result<crate::Masks, Refusal> {
        // SAFETY: the pointer is passed with the length of what it points to.
        masks(unsafe { tl_move(self, order.as_ptr(), order.len(), finger, x, y) })
    }

    /// Lifts a held finger. The order is read, and its layout does not matter.
    pub fn lift(&mut self, order: &[u8], finger: u8) -> Result<crate::Masks, Refusal> {
        // SAFETY: the pointer is passed with the length of what it points to.
        masks(unsafe { tl_lift(self, order.as_ptr(), order.len(), finger) })
    }
}

/// Writes the layout of a viewport as [`layout`] does: the order's tag 1 is
/// the place of the controls, its tag 2 the picture. A top outside -8,192 to
/// 8,192, or a `reusable_top` below 0, is [`Refusal::OffTheScale`].
pub fn viewport_layout(
    order: &[u8],
    reusable_top: f32,
    covered_top: f32,
    out: &mut [u8],
) -> Result<usize, Refusal> {
    // SAFETY: each pointer is passed with the length of what it points to.
    let number = unsafe {
        tl_viewport_layout(
            order.as_ptr(),
            order.len(),
            reusable_top,
            covered_top,
            out.as_mut_ptr(),
            out.len(),
        )
    };
    Ok(answer(number)? as usize)
}

/// The film sheet of an order, which is ASCII: of each line x, y and the edges
/// x + w, y + h are the exact ones in tenths, rounded, so that elements that
/// touch are cut on one line. A refused order has one too: the line `REFUSED`
/// with the number of the refusal.
pub fn film(order: &[u8]) -> String {
    let mut sheet = [0; 1024];
    // SAFETY: the pointer is passed with the length of what it points to.
    let length = unsafe { tl_film(order.as_ptr(), order.len(), &mut sheet) };
    String::from_utf8(sheet[..length as usize].to_vec()).expect("a sheet is ASCII")
}

/// Writes the order of settings to the start of `out`, and gives the number of
/// bytes. Whole rectangles are passed, so that no call is a wrong one (100).
pub(crate) fn write_order(
    numbers: &[f32; 9],
    mode: u8,
    fit: u8,
    cutouts: &[[f32; 4]],
    saved: &[[f32; 4]],
    out: &mut [u8],
) -> Result<usize, Refusal> {
    let (cutouts, saved) = (cutouts.as_flattened(), saved.as_flattened());
    // SAFETY: each pointer is passed with the length of what it points to.
    let number = unsafe {
        tl_write_order(
            numbers,
            mode,
            fit,
            cutouts.as_ptr(),
            cutouts.len(),
            saved.as_ptr(),
            saved.len(),
            out.as_mut_ptr(),
            out.len(),
        )
    };
    Ok(answer(number)? as usize)
}

/// The part of a screen of this size inside the edges (left, top, right,
/// bottom), which count only if they were measured at the same size.
/// A number outside -8,192 to 8,192 is [`Refusal::OffTheScale`].
pub fn safe_content(
    size: [i32; 2],
    inset_size: [i32; 2],
    edges: [i32; 4],
) -> Result<Rect, Refusal> {
    let mut numbers = [0; 8];
    numbers[..2].copy_from_slice(&size);
    numbers[2..4].copy_from_slice(&inset_size);
    numbers[4..].copy_from_slice(&edges);
    let mut area = [0.; 4];
    answer(tl_safe_content(&numbers, &mut area))?;
    let [x, y, w, h] = area;
    Ok(Rect { x, y, w, h })
}

/// The edges (left, top, right, bottom) of decoration, navigation and a camera
/// merged: at each side the widest. A local side camera is an obstacle of its
/// own and has no edge left and right. A number outside -8,192 to 8,192 is
/// [`Refusal::OffTheScale`].
pub fn safe_edges(
    decoration: [i32; 4],
    navigation: [i32; 4],
    camera: [i32; 4],
    local_side_camera: bool,
) -> Result<[i32; 4], Refusal> {
    let mut numbers = [0; 12];
    numbers[..4].copy_from_slice(&decoration);
    numbers[4..8].copy_from_slice(&navigation);
    numbers[8..].copy_from_slice(&camera);
    let mut edges = [0; 4];
    answer(tl_safe_edges(
        &numbers,
        local_side_camera.into(),
        &mut edges,
    ))?;
    Ok(edges)
}
