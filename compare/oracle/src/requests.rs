//! The requests that the oracle answers.
use player::access::{self, LayoutData, picture};
use player::order::{self, Answer, ROOM, writer::Given};
use player::tracker::{self, Call, Fingers};
use player::words::{Rest, Value, line, words};
use player::{PictureFit, PlayerViewport, Preset, Rect, sheet};

pub struct Request {
    pub name: &'static str,
    /// The arguments by name and kind, then the kind of the answer.
    pub usage: fn() -> String,
    answer: fn(&mut Rest) -> Result<String, String>,
}

/// A table of requests, each written as a signature and the call it stands for.
macro_rules! requests {
    ($($name:ident($($argument:ident: $kind:ty),*) -> $answer:ty = $call:expr;)*) => {
        pub const REQUESTS: &[Request] = &[$(Request {
            name: stringify!($name),
            usage: || {
                let arguments = [$(format!("{}:{}", stringify!($argument), <$kind>::kind())),*];
                format!("{} -> {}", arguments.join(" "), <$answer>::kind())
            },
            answer: |rest| {
                $(let $argument = <$kind>::take(rest)?;)*
                let extra = rest.count();
                if extra > 0 {
                    return Err(format!("{extra} words too many"));
                }
                let answer: $answer = $call;
                Ok(line(&words(&answer)))
            },
        }),*];
    };
}
type Rects = Vec<Rect>;
requests! {
    contains(r: Rect, x: f32, y: f32) -> bool = access::contains(r, x, y);
    fit(r: Rect, aspect: f32) -> Rect = access::fit(r, aspect);
    overlaps(a: Rect, b: Rect) -> bool = access::overlaps(a, b);
    same_bounds(a: Rect, b: Rect) -> bool = access::same_bounds(a, b);
    hypot(a: f32, b: f32) -> f32 = a.hypot(b);

    safe_content(size: [i32; 2], inset_size: [i32; 2], edges: [i32; 4]) -> Rect
        = access::safe_content(size, inset_size, edges);
    safe_edges(decoration: [i32; 4], navigation: [i32; 4], camera: [i32; 4],
        local_side_camera: bool)
        -> [i32; 4] = access::safe_edges(decoration, navigation, camera, local_side_camera);

    clear_picture(w: f32, h: f32, obstacles: Rects) -> Rect
        = access::clear_picture(w, h, &obstacles);
    clear_picture_aspect(w: f32, h: f32, obstacles: Rects, aspect: f32) -> Rect
        = access::clear_picture_aspect(w, h, &obstacles, aspect);

    new(w: f32, h: f32) -> LayoutData = access::new(w, h);
    arranged(w: f32, h: f32, compact: bool) -> LayoutData = access::arranged(w, h, compact);
    side_rails(w: f32, h: f32, picture_height: f32, cutouts: Rects) -> LayoutData
        = access::side_rails(w, h, picture_height, &cutouts);
    default_with_cutouts(w: f32, h: f32, cutouts: Rects) -> LayoutData
        = access::default_with_cutouts(w, h, &cutouts);
    default_in(w: f32, h: f32, cutouts: Rects, picture: Rect) -> LayoutData
        = access::default_in(w, h, &cutouts, picture);
    analog_default(w: f32, h: f32) -> LayoutData = access::analog_default(w, h);
    psp(w: f32, h: f32) -> LayoutData = access::psp(w, h);
    controller_band(w: f32, h: f32, analog: bool, psp: bool, picture: Rect) -> Option<LayoutData>
        = access::controller_band(w, h, analog, psp, picture);
    analog_camera_rails(w: f32, h: f32, picture: Rect, cutouts: Rects, psp: bool)
        -> Option<LayoutData>
        = access::analog_camera_rails(w, h, picture, &cutouts, psp);

    element(layout: LayoutData, index: usize) -> Rect = access::element(&layout, index);
    set_element(layout: LayoutData, index: usize, rect: Rect) -> LayoutData
        = access::set_element(&layout, index, rect);
    element_count(layout: LayoutData) -> usize = access::element_count(&layout);
    controller_elements(layout: LayoutData) -> Vec<usize> = access::controller_elements(&layout);
    action_elements(layout: LayoutData) -> Vec<usize> = access::action_elements(&layout);
    action_bounds(layout: LayoutData) -> Rect = access::action_bounds(&layout);
    psp_inputs(layout: LayoutData) -> LayoutData = access::psp_inputs(&layout);
    anchor_toolbar(layout: LayoutData, w: f32, h: f32, reusable_top: f32, covered_top: f32,
        cutouts: Rects)
        -> LayoutData = access::anchor_toolbar(&layout, w, h, reusable_top, covered_top, &cutouts);
    place_game(layout: LayoutData, w: f32, h: f32, overlap: bool, scale: f32, offset: [f32; 2])
        -> LayoutData = access::place_game(&layout, w, h, overlap, scale, offset);
    place_game_in(layout: LayoutData, bounds: Rect, overlap: bool, scale: f32, offset: [f32; 2])
        -> LayoutData = access::place_game_in(&layout, bounds, overlap, scale, offset);
    place_game_in_aspect(layout: LayoutData, bounds: Rect, overlap: bool, scale: f32,
        offset: [f32; 2], aspect: f32)
        -> LayoutData
        = access::place_game_in_aspect(&layout, bounds, overlap, scale, offset, aspect);
    fit_landscape_controls(layout: LayoutData, w: f32, h: f32, picture: Rect, aspect: f32)
        -> LayoutData = access::fit_landscape_controls(&layout, w, h, picture, aspect);
    avoid_cutouts(layout: LayoutData, w: f32, h: f32, cutouts: Rects) -> LayoutData
        = access::avoid_cutouts(&layout, w, h, &cutouts);
    mask_near(layout: LayoutData, x: f32, y: f32, previous: u16) -> u16
        = access::mask_near(&layout, x, y, previous);

    diamond(layout: LayoutData, rect: Rect) -> LayoutData = picture::diamond(&layout, rect);
    auxiliary(layout: LayoutData, left: Rect, right: Rect, shoulders: f32, system: f32)
        -> LayoutData
        = picture::auxiliary(&layout, left, right, shoulders, system);
    vertical(w: f32, h: f32, left: Rect, right: Rect, analog: bool, psp: bool) -> Option<LayoutData>
        = picture::vertical(w, h, left, right, analog, psp);
    horizontal(w: f32, h: f32, band: Rect, analog: bool, psp: bool) -> Option<LayoutData>
        = picture::horizontal(w, h, band, analog, psp);
    fits(layout: LayoutData, w: f32, h: f32, game: Rect, holes: Rects) -> bool
        = picture::fits(&layout, w, h, game, &holes);
    controls(w: f32, h: f32, game: Rect, analog: bool, psp: bool, holes: Rects)
        -> Option<LayoutData>
        = picture::controls(w, h, game, analog, psp, &holes);

    picture_fit(preset: Preset) -> PictureFit = access::picture_fit(&preset);
    layout_in(preset: Preset, w: f32, h: f32, cutouts: Rects, picture: Rect) -> LayoutData
        = access::layout_in(&preset, w, h, &cutouts, picture);
    layout_with_cutouts(preset: Preset, w: f32, h: f32, cutouts: Rects) -> LayoutData
        = access::layout_with_cutouts(&preset, w, h, &cutouts);
    capture(preset: Preset, layout: LayoutData, w: f32, h: f32) -> Preset
        = access::capture(&preset, &layout, w, h);
    viewport_layout(viewport: PlayerViewport, preset: Preset, cutouts: Rects) -> LayoutData
        = access::viewport_layout(viewport, &preset, &cutouts);

    order_layout(order: Vec<u8>, lent: usize, fill: u8) -> (Answer<usize>, Vec<u8>)
        = order::lent(lent, fill, |out| order::layout(&order, out));
    order_touch(order: Vec<u8>, touch: [f32; 2], previous: u16) -> Answer<u16>
        = order::touch(&order, touch, previous);
    order_finger(order: Vec<u8>, fingers: Fingers, call: Call) -> (Answer<[u16; 2]>, Fingers)
        = { let mut fingers = fingers; (tracker::order_call(&mut fingers, &order, call), fingers) };
    order_viewport(order: Vec<u8>, tops: [f32; 2], lent: usize, fill: u8)
        -> (Answer<usize>, Vec<u8>)
        = order::lent(lent, fill, |out| order::viewport_layout(&order, tops, out));
    read_order(order: Vec<u8>) -> Answer<Given>
        = order::read(&order).map(|settings| Given::from(&settings));
    write_order(settings: Given, lent: usize, start: u16) -> (Answer<usize>, [u8; ROOM])
        = order::lent_noise(lent, start, |out| settings.write(out));
    order_film(order: Vec<u8>) -> ([u8; 1024], usize) = sheet::film_sheet(&order);
    film_edge(x: f32, w: f32) -> i32 = sheet::edge(x, w).try_into().expect("an i32");
}

/// The answer to one request line.
pub fn answer(request: &str) -> Result<String, String> {
    let mut rest = request.split_whitespace();
    let name = rest.next().ok_or("empty request")?;
    let request = REQUESTS.iter().find(|r| r.name == name);
    let request = request.ok_or_else(|| format!("no function {name}"))?;
    // Outside its domain the Rust may panic: an index, or `clamp` with its ends crossed.
    std::panic::catch_unwind(move || (request.answer)(&mut rest))
        .unwrap_or_else(|_| Err("the Rust panicked".into()))
}
