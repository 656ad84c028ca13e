//! The functions that hosts call.
// Links libthumb_layout.a, for the functions whose names start with tl_.
use thumb_layout as _;

/// Two masks, or minus a refusal in both.
#[repr(C)]
struct Masks {
    mask: i32,
    combined: i32,
}

/// Of each finger whether it is held, and its mask.
pub type Fingers = [[u16; 2]; 10];

unsafe extern "C" {
    fn tl_press(
        t: &mut Fingers,
        order: *const u8,
        order_len: usize,
        finger: u8,
        x: f32,
        y: f32,
    ) -> Masks;
    fn tl_move(
        t: &mut Fingers,
        order: *const u8,
        order_len: usize,
        finger: u8,
        x: f32,
        y: f32,
    ) -> Masks;
    fn tl_lift(t: &mut Fingers, order: *const u8, order_len: usize, finger: u8) -> Masks;
    fn tl_film(order: *const u8, order_len: usize, sheet: &mut [u8; 1024]) -> i32;
    fn tl_write_order(
        numbers: &[f32; 9],
        mode: u8,
        fit: u8,
        cutouts: *const f32,
        cutouts_len: usize,
        saved: *const f32,
        saved_len: usize,
        out: *mut u8,
        out_len: usize,
    ) -> i32;
    fn probe_layout(order: *const u8, order_len: usize, out: *mut u8, out_len: usize) -> usize;
    fn probe_touch(order: *const u8, order_len: usize, x: f32, y: f32, previous: u16) -> usize;
    fn probe_viewport_layout(
        order: *const u8,
        order_len: usize,
        reusable_top: f32,
        covered_top: f32,
        out: *mut u8,
        out_len: usize,
    ) -> usize;
    safe fn probe_safe_content(numbers: &[i32; 8], area: &mut [f32; 4]) -> bool;
    safe fn probe_safe_edges(
        numbers: &[i32; 12],
        local_side_camera: bool,
        edges: &mut [i32; 4],
    ) -> bool;
    fn probe_film_sheet(order: *const u8, order_len: usize, sheet: &mut [u8; 1024]) -> usize;
}

/// A function's answer, or the number of its refusal.
pub type Answer<T> = Result<T, i32>;

/// A refusal's number is given with 65,536 added; no other answer is as great.
fn answer(number: usize) -> Answer<usize> {
    match number.checked_sub(65536) {
        Some(refusal) => Err(refusal as i32),
        None => Ok(number),
    }
}

pub fn layout(order: &[u8], out: &mut [u8]) -> Answer<usize> {
    // SAFETY: each pointer is passed with the length of what it points to.
    answer(unsafe { probe_layout(order.as_ptr(), order.len(), out.as_mut_ptr(), out.len()) })
}

pub fn touch(order: &[u8], [x, y]: [f32; 2], previous: u16) -> Answer<u16> {
    // SAFETY: the pointer is passed with the length of what it points to.
    let mask = unsafe { probe_touch(order.as_ptr(), order.len(), x, y, previous) };
    answer(mask).map(|mask| mask as u16)
}

/// The finger's mask and the combined mask.
fn masks(Masks { mask, combined }: Masks) -> Answer<[u16; 2]> {
    if mask < 0 {
        assert_eq!(mask, combined, "a refusal in both");
        return Err(-mask);
    }
    Ok([mask, combined].map(|mask| mask.try_into().expect("a mask")))
}

#[inline]
pub fn press(t: &mut Fingers, order: &[u8], finger: u8, [x, y]: [f32; 2]) -> Answer<[u16; 2]> {
    // SAFETY: the pointer is passed with the length of what it points to.
    masks(unsafe { tl_press(t, order.as_ptr(), order.len(), finger, x, y) })
}

#[inline]
pub fn move_to(t: &mut Fingers, order: &[u8], finger: u8, [x, y]: [f32; 2]) -> Answer<[u16; 2]> {
    // SAFETY: as above.
    masks(unsafe { tl_move(t, order.as_ptr(), order.len(), finger, x, y) })
}

#[inline]
pub fn lift(t: &mut Fingers, order: &[u8], finger: u8) -> Answer<[u16; 2]> {
    // SAFETY: as above.
    masks(unsafe { tl_lift(t, order.as_ptr(), order.len(), finger) })
}

pub fn viewport_layout(order: &[u8], tops: [f32; 2], out: &mut [u8]) -> Answer<usize> {
    let [reusable_top, covered_top] = tops;
    // SAFETY: each pointer is passed with the length of what it points to.
    answer(unsafe {
        probe_viewport_layout(
            order.as_ptr(),
            order.len(),
            reusable_top,
            covered_top,
            out.as_mut_ptr(),
            out.len(),
        )
    })
}

/// The mode and the fit are the bytes of tags 3 and 4; cutouts and saved
/// rectangles have four numbers each.
// Inlined, as a host's call of the C function is: it takes some ten
// nanoseconds, and a second call of nine arguments as many.
#[inline]
pub fn write_order(
    numbers: &[f32; 9],
    [mode, fit]: [u8; 2],
    cutouts: &[f32],
    saved: &[f32],
    out: &mut [u8],
) -> Answer<usize> {
    // SAFETY: each pointer is passed with the length of what it points to.
    let number = unsafe {
        tl_write_order(
            numbers,
            mode,
            fit,
            cutouts.as_ptr(),
            cutouts.len(),
            saved.as_ptr(),
            saved.len(),
            out.as_mut_ptr(),
            out.len(),
        )
    };
    usize::try_from(number).map_err(|_| -number)
}

/// An answer that can only be refused as off the scale.
fn on_the_scale<T>(accepted: bool, value: T) -> Answer<T> {
    if accepted { Ok(value) } else { Err(6) }
}

/// Of size, inset size and edges.
pub fn safe_content(numbers: &[i32; 8]) -> Answer<[f32; 4]> {
    let mut area = [0.; 4];
    on_the_scale(probe_safe_content(numbers, &mut area), area)
}

/// Of decoration, navigation and camera.
pub fn safe_edges(numbers: &[i32; 12], local_side_camera: bool) -> Answer<[i32; 4]> {
    let mut edges = [0; 4];
    on_the_scale(
        probe_safe_edges(numbers, local_side_camera, &mut edges),
        edges,
    )
}

/// Writes the sheet to lent bytes: its length.
#[inline]
pub fn film(order: &[u8], sheet: &mut [u8; 1024]) -> usize {
    // SAFETY: the pointer is passed with the length of what it points to.
    unsafe { tl_film(order.as_ptr(), order.len(), sheet) as usize }
}

/// The sheet and its length.
pub fn film_sheet(order: &[u8]) -> ([u8; 1024], usize) {
    let mut sheet = [255; 1024];
    // SAFETY: the pointer is passed with the length of what it points to.
    let length = unsafe { probe_film_sheet(order.as_ptr(), order.len(), &mut sheet) };
    (sheet, length)
}
