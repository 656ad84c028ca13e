//! Inner functions, from the library that probe/build makes.
use crate::host::Fingers;

/// 20 rectangles as x, y, w, h: those of a list, or of a layout, which are
/// game, d-pad, pause, playback, speed, mute, two sticks, twelve controls.
pub type Rects = [[f32; 4]; 20];

unsafe extern "C" {
    safe fn probe_hypot(a: f32, b: f32) -> f32;
    fn probe_edge(x: f32, w: f32) -> i32;
    fn probe_clear_picture_aspect(
        w: f32,
        h: f32,
        obstacles: &Rects,
        n: usize,
        aspect: f32,
        times: usize,
        step: f32,
        out: &mut Rects,
    );
    fn probe_anchor_toolbar(
        layout: &Rects,
        kind: u8,
        w: f32,
        h: f32,
        reusable_top: f32,
        covered_top: f32,
        cutouts: &Rects,
        n: usize,
        times: usize,
        step: f32,
        out: &mut Rects,
    );
    safe fn probe_mask_near(
        layout: &Rects,
        kind: u8,
        x: f32,
        y: f32,
        previous: u16,
        times: usize,
        step: f32,
    ) -> u16;
    safe fn probe_press(
        t: &mut Fingers,
        layout: &Rects,
        kind: u8,
        finger: u8,
        x: f32,
        y: f32,
        times: usize,
        step: f32,
    ) -> u16;
    safe fn probe_arranged(w: f32, h: f32, compact: bool, times: usize, step: f32, out: &mut Rects);
    fn probe_side_rails(
        w: f32,
        h: f32,
        picture_height: f32,
        cutouts: &Rects,
        n: usize,
        times: usize,
        step: f32,
        out: &mut Rects,
    );
    safe fn probe_controller_band(
        w: f32,
        h: f32,
        analog: bool,
        psp: bool,
        picture: &Rects,
        times: usize,
        step: f32,
        out: &mut Rects,
    ) -> bool;
    fn probe_avoid_cutouts(
        layout: &Rects,
        kind: u8,
        w: f32,
        h: f32,
        cutouts: &Rects,
        n: usize,
        times: usize,
        step: f32,
        out: &mut Rects,
    );
    fn probe_default_in(
        w: f32,
        h: f32,
        cutouts: &Rects,
        n: usize,
        picture: &Rects,
        out: &mut Rects,
    );
    safe fn probe_analog_default(w: f32, h: f32, out: &mut Rects);
    safe fn probe_psp(w: f32, h: f32, out: &mut Rects);
    fn probe_analog_camera_rails(
        w: f32,
        h: f32,
        picture: &Rects,
        cutouts: &Rects,
        n: usize,
        psp: bool,
        out: &mut Rects,
    ) -> bool;
    safe fn probe_diamond(well: &Rects, out: &mut Rects);
    safe fn probe_auxiliary(
        layout: &Rects,
        columns: &Rects,
        shoulders: f32,
        system: f32,
        out: &mut Rects,
    );
    safe fn probe_vertical(
        w: f32,
        h: f32,
        columns: &Rects,
        analog: bool,
        psp: bool,
        out: &mut Rects,
    ) -> bool;
    safe fn probe_horizontal(
        w: f32,
        h: f32,
        band: &Rects,
        analog: bool,
        psp: bool,
        out: &mut Rects,
    ) -> bool;
    fn probe_fits(
        layout: &Rects,
        kind: u8,
        w: f32,
        h: f32,
        game: &Rects,
        holes: &Rects,
        n: usize,
    ) -> bool;
    fn probe_controls(
        w: f32,
        h: f32,
        game: &Rects,
        analog: bool,
        psp: bool,
        holes: &Rects,
        n: usize,
        out: &mut Rects,
    ) -> bool;
    safe fn probe_fit(rect: &Rects, aspect: f32, out: &mut Rects);
    safe fn probe_same_bounds(rects: &Rects) -> bool;
    safe fn probe_element(layout: &Rects, kind: u8, index: usize, out: &mut Rects) -> bool;
    safe fn probe_set_element(
        layout: &Rects,
        kind: u8,
        index: usize,
        to: &Rects,
        out: &mut Rects,
    ) -> bool;
    safe fn probe_new_layout(w: f32, h: f32, out: &mut Rects);
    fn probe_default_with_cutouts(w: f32, h: f32, cutouts: &Rects, n: usize, out: &mut Rects);
    safe fn probe_capture(
        layout: &Rects,
        kind: u8,
        w: f32,
        h: f32,
        marks: &mut [u8; 4],
        game: &mut [f32; 3],
        places: &mut [[f32; 4]; 32],
        count: usize,
    ) -> usize;
    fn probe_read_order(
        order: *const u8,
        order_len: usize,
        screen: &mut [f32; 2],
        picture: &mut Rects,
        cutouts: &mut Rects,
        marks: &mut [u8; 4],
        game: &mut [f32; 3],
        places: &mut [[f32; 4]; 32],
        counts: &mut [usize; 2],
    ) -> u8;
    fn probe_layout_with_cutouts(
        marks: &[u8; 4],
        game: &[f32; 3],
        places: &[[f32; 4]; 32],
        count: usize,
        w: f32,
        h: f32,
        cutouts: &Rects,
        n: usize,
        out: &mut Rects,
    ) -> bool;
}

/// The first `count` of the rectangles.
#[derive(Clone, Debug)]
pub struct List {
    pub at: Rects,
    pub count: usize,
}

/// A layout by its rectangles and its kind, which fixes labels and counts: 0
/// standard, 1 analog, 2 psp.
#[derive(Clone, Debug)]
pub struct Layout {
    pub at: Rects,
    pub kind: u8,
}

/// A preset: psp, analog, allow_overlap and the fit as in tag 4; game_scale and
/// game_offset; places for saved rectangles, of which the first `count` are in
/// use.
#[derive(Clone, Debug)]
pub struct Preset {
    pub marks: [u8; 4],
    pub game: [f32; 3],
    pub places: [[f32; 4]; 32],
    pub count: usize,
}

/// What an order says.
#[derive(Clone, Debug)]
pub struct Settings {
    pub screen: [f32; 2],
    pub picture: [f32; 4],
    pub preset: Preset,
    pub cutouts: List,
}

/// How often a function runs in one call, for timing: the answer is the last.
/// Its first number grows by `step` each time, so that no run is left out.
#[derive(Clone, Copy, Debug)]
pub struct Runs {
    pub times: usize,
    pub step: f32,
}

pub const ONCE: Runs = Runs { times: 1, step: 0. };

pub fn hypot(a: f32, b: f32) -> f32 {
    probe_hypot(a, b)
}

/// The nearest whole number to ten times x + w, which are up to 2^17 in size.
pub fn edge(x: f32, w: f32) -> i32 {
    assert!(x.abs() <= 131072. && w.abs() <= 131072.);
    // SAFETY: the numbers are what the function requires.
    unsafe { probe_edge(x, w) }
}

pub fn clear_picture_aspect(w: f32, h: f32, obstacles: &List, aspect: f32, runs: Runs) -> [f32; 4] {
    assert!(obstacles.count <= 19);
    let (at, n) = (&obstacles.at, obstacles.count);
    let mut out = [[0.; 4]; 20];
    // SAFETY: the count is what the function requires.
    unsafe { probe_clear_picture_aspect(w, h, at, n, aspect, runs.times, runs.step, &mut out) };
    out[0]
}

pub fn anchor_toolbar(
    layout: &Layout,
    w: f32,
    h: f32,
    tops: [f32; 2],
    cutouts: &List,
    runs: Runs,
) -> Layout {
    let (Layout { at, kind }, Runs { times, step }) = (layout, runs);
    let (holes, n) = lent(cutouts);
    let [reusable, covered] = tops;
    // SAFETY: the count is what the function requires.
    made(*kind, |out| unsafe {
        probe_anchor_toolbar(
            at, *kind, w, h, reusable, covered, holes, n, times, step, out,
        )
    })
}

pub fn mask_near(layout: &Layout, x: f32, y: f32, previous: u16, runs: Runs) -> u16 {
    let Layout { at, kind } = layout;
    probe_mask_near(at, *kind, x, y, previous, runs.times, runs.step)
}

/// A press on a layout at hand: the combined mask. Each run is of the tracker as
/// it is lent, and changes it where it lies.
#[inline]
pub fn press(t: &mut Fingers, layout: &Layout, finger: u8, [x, y]: [f32; 2], runs: Runs) -> u16 {
    let Layout { at, kind } = layout;
    probe_press(t, at, *kind, finger, x, y, runs.times, runs.step)
}

/// A layout that a function makes in the place lent to it.
fn made(kind: u8, make: impl FnOnce(&mut Rects)) -> Layout {
    let mut at = [[0.; 4]; 20];
    make(&mut at);
    Layout { at, kind }
}

/// The same of a function that answers whether there is one.
fn maybe(kind: u8, make: impl FnOnce(&mut Rects) -> bool) -> Option<Layout> {
    let mut some = false;
    let layout = made(kind, |out| some = make(out));
    some.then_some(layout)
}

/// Cutouts as they are lent, at most 16.
fn lent(cutouts: &List) -> (&Rects, usize) {
    assert!(cutouts.count <= 16);
    (&cutouts.at, cutouts.count)
}

/// The kind of a layout that is analog, or psp, which goes first.
fn kind_of([analog, psp]: [bool; 2]) -> u8 {
    if psp { 2 } else { u8::from(analog) }
}

pub fn arranged(w: f32, h: f32, compact: bool, runs: Runs) -> Layout {
    made(0, |out| {
        probe_arranged(w, h, compact, runs.times, runs.step, out)
    })
}

pub fn side_rails(w: f32, h: f32, picture_height: f32, cutouts: &List, runs: Runs) -> Layout {
    let (at, n) = lent(cutouts);
    // SAFETY: the count is what the function requires.
    made(0, |out| unsafe {
        probe_side_rails(w, h, picture_height, at, n, runs.times, runs.step, out)
    })
}

/// For a layout of a kind; the picture is the first of the list.
pub fn controller_band(w: f32, h: f32, kind: u8, picture: &List, runs: Runs) -> Option<Layout> {
    let (analog, psp) = (kind > 0, kind > 1);
    let Runs { times, step } = runs;
    maybe(kind, |out| {
        probe_controller_band(w, h, analog, psp, &picture.at, times, step, out)
    })
}

pub fn avoid_cutouts(layout: &Layout, w: f32, h: f32, cutouts: &List, runs: Runs) -> Layout {
    let (Layout { at, kind }, Runs { times, step }) = (layout, runs);
    let (holes, n) = lent(cutouts);
    // SAFETY: the count is what the function requires.
    made(*kind, |out| unsafe {
        probe_avoid_cutouts(at, *kind, w, h, holes, n, times, step, out)
    })
}

// The picture, the game, a band and a well are the first of a list; the left
// and the right column the first two.

pub fn default_in(w: f32, h: f32, cutouts: &List, picture: &List) -> Layout {
    let (at, n) = lent(cutouts);
    // SAFETY: the count is what the function requires.
    made(0, |out| unsafe {
        probe_default_in(w, h, at, n, &picture.at, out)
    })
}

pub fn analog_default(w: f32, h: f32) -> Layout {
    made(1, |out| probe_analog_default(w, h, out))
}

pub fn psp(w: f32, h: f32) -> Layout {
    made(2, |out| probe_psp(w, h, out))
}

pub fn analog_camera_rails(
    w: f32,
    h: f32,
    picture: &List,
    cutouts: &List,
    psp: bool,
) -> Option<Layout> {
    let (at, n) = lent(cutouts);
    // SAFETY: the count is what the function requires.
    maybe(kind_of([true, psp]), |out| unsafe {
        probe_analog_camera_rails(w, h, &picture.at, at, n, psp, out)
    })
}

/// A layout of which only the face caps are of meaning.
pub fn diamond(well: &List) -> Layout {
    made(1, |out| probe_diamond(&well.at, out))
}

/// A layout of which only the controls are of meaning; the face caps are the
/// given layout's.
pub fn auxiliary(layout: &Layout, columns: &List, shoulders: f32, system: f32) -> Layout {
    made(1, |out| {
        probe_auxiliary(&layout.at, &columns.at, shoulders, system, out)
    })
}

pub fn vertical(w: f32, h: f32, columns: &List, [analog, psp]: [bool; 2]) -> Option<Layout> {
    maybe(kind_of([analog, psp]), |out| {
        probe_vertical(w, h, &columns.at, analog, psp, out)
    })
}

pub fn horizontal(w: f32, h: f32, band: &List, [analog, psp]: [bool; 2]) -> Option<Layout> {
    maybe(kind_of([analog, psp]), |out| {
        probe_horizontal(w, h, &band.at, analog, psp, out)
    })
}

pub fn fits(layout: &Layout, w: f32, h: f32, game: &List, holes: &List) -> bool {
    let (at, n) = lent(holes);
    // SAFETY: the count is what the function requires.
    unsafe { probe_fits(&layout.at, layout.kind, w, h, &game.at, at, n) }
}

pub fn controls(
    w: f32,
    h: f32,
    game: &List,
    [analog, psp]: [bool; 2],
    holes: &List,
) -> Option<Layout> {
    let (at, n) = lent(holes);
    // SAFETY: the count is what the function requires.
    maybe(kind_of([analog, psp]), |out| unsafe {
        probe_controls(w, h, &game.at, analog, psp, at, n, out)
    })
}

// Functions that no host's call comes to. A rectangle is the first of a list.

pub fn fit(rect: &List, aspect: f32) -> [f32; 4] {
    let mut out = [[0.; 4]; 20];
    probe_fit(&rect.at, aspect, &mut out);
    out[0]
}

/// Of the first two of the list.
pub fn same_bounds(rects: &List) -> bool {
    probe_same_bounds(&rects.at)
}

/// None if the layout has no element of this index.
pub fn element(layout: &Layout, index: usize) -> Option<[f32; 4]> {
    let mut out = [[0.; 4]; 20];
    let some = probe_element(&layout.at, layout.kind, index, &mut out);
    some.then_some(out[0])
}

/// The same.
pub fn set_element(layout: &Layout, index: usize, to: &List) -> Option<Layout> {
    let Layout { at, kind } = layout;
    maybe(*kind, |out| {
        probe_set_element(at, *kind, index, &to.at, out)
    })
}

pub fn new_layout(w: f32, h: f32) -> Layout {
    made(0, |out| probe_new_layout(w, h, out))
}

pub fn default_with_cutouts(w: f32, h: f32, cutouts: &List) -> Layout {
    let (at, n) = lent(cutouts);
    // SAFETY: the count is what the function requires.
    made(0, |out| unsafe {
        probe_default_with_cutouts(w, h, at, n, out)
    })
}

pub fn capture(preset: &Preset, layout: &Layout, w: f32, h: f32) -> Preset {
    let mut new = preset.clone();
    let Preset {
        marks,
        game,
        places,
        count,
    } = &mut new;
    *count = probe_capture(&layout.at, layout.kind, w, h, marks, game, places, *count);
    new
}

/// None if the screen is not in the limits of an order.
pub fn layout_with_cutouts(preset: &Preset, w: f32, h: f32, cutouts: &List) -> Option<Layout> {
    let Preset {
        marks,
        game,
        places,
        count,
    } = preset;
    assert!(*count <= 32);
    let (at, n) = lent(cutouts);
    let kind = kind_of([marks[1] > 0, marks[0] > 0]);
    // SAFETY: the counts are what the function requires.
    maybe(kind, |out| unsafe {
        probe_layout_with_cutouts(marks, game, places, *count, w, h, at, n, out)
    })
}

/// The settings of an order, or the number of its refusal.
pub fn read_order(order: &[u8]) -> Result<Settings, i32> {
    let mut screen = [0.; 2];
    let [mut picture, mut cutouts] = [[[0.; 4]; 20]; 2];
    let (mut marks, mut game, mut places) = ([0; 4], [0.; 3], [[0.; 4]; 32]);
    let mut counts = [0; 2];
    // SAFETY: the pointer is passed with the length of what it points to.
    let refusal = unsafe {
        probe_read_order(
            order.as_ptr(),
            order.len(),
            &mut screen,
            &mut picture,
            &mut cutouts,
            &mut marks,
            &mut game,
            &mut places,
            &mut counts,
        )
    };
    let [holes, count] = counts;
    let settings = Settings {
        screen,
        picture: picture[0],
        preset: Preset {
            marks,
            game,
            places,
            count,
        },
        cutouts: List {
            at: cutouts,
            count: holes,
        },
    };
    match refusal {
        0 => Ok(settings),
        _ => Err(refusal.into()),
    }
}
