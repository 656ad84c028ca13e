//! Plain data as the inner functions take it.
use ours::probe::{self, Layout, List, Rects};
use player::{
    PictureFit, Preset, Rect,
    access::{ControlData, LayoutData},
    order::writer::Given,
};

/// The labels of each kind of layout and its number of sticks.
const KINDS: [(&[usize], usize); 3] = [
    (&[0, 1, 2, 3, 4, 5, 6, 7, 8, 9], 0),
    (&[0, 1, 2, 3, 4, 5, 6, 7, 8, 9, 10, 11], 2),
    (&[0, 1, 2, 3, 4, 7, 8, 9], 1),
];

fn numbers(r: Rect) -> [f32; 4] {
    [r.x, r.y, r.w, r.h]
}

pub fn rect([x, y, w, h]: [f32; 4]) -> Rect {
    Rect::new(x, y, w, h)
}

/// The rectangles, and more of zeros.
fn rects(from: impl IntoIterator<Item = Rect>) -> Rects {
    let mut rects = [[0.; 4]; 20];
    for (to, r) in rects.iter_mut().zip(from) {
        *to = numbers(r);
    }
    rects
}

pub fn list(from: &[Rect]) -> List {
    List {
        at: rects(from.iter().copied()),
        count: from.len(),
    }
}

pub fn layout(from: &LayoutData) -> Layout {
    let kind = KINDS.iter().position(|(labels, sticks)| {
        from.controls.iter().map(|c| &c.label).eq(*labels) && from.sticks.len() == *sticks
    });
    let sticks = from.sticks.iter().copied().chain([Rect::default(); 2]);
    let controls = from.controls.iter().map(|c| c.bounds);
    let keys = [from.pause, from.playback, from.speed, from.mute];
    Layout {
        at: rects(
            [from.game, from.dpad]
                .into_iter()
                .chain(keys)
                .chain(sticks.take(2))
                .chain(controls),
        ),
        kind: kind.expect("a layout is of one of three kinds") as u8,
    }
}

pub fn layout_data(from: &Layout) -> LayoutData {
    let (labels, sticks) = KINDS[usize::from(from.kind)];
    let at = from.at.map(rect);
    LayoutData {
        game: at[0],
        dpad: at[1],
        controls: labels
            .iter()
            .zip(&at[8..])
            .map(|(&label, &bounds)| ControlData { bounds, label })
            .collect(),
        pause: at[2],
        playback: at[3],
        speed: at[4],
        mute: at[5],
        sticks: at[6..6 + sticks].to_vec(),
    }
}

/// The places after the saved rectangles hold something else.
pub fn preset(from: &Preset) -> probe::Preset {
    let mut places = [[7.; 4]; 32];
    for (to, r) in places.iter_mut().zip(&from.elements) {
        *to = numbers(*r);
    }
    let fit = match from.picture_fit {
        None => 0,
        Some(PictureFit::Maximum) => 1,
        Some(PictureFit::KeepClear) => 2,
    };
    let [across, down] = from.game_offset;
    probe::Preset {
        marks: [
            from.psp.into(),
            from.analog.into(),
            from.allow_overlap.into(),
            fit,
        ],
        game: [from.game_scale, across, down],
        places,
        count: from.elements.len(),
    }
}

pub fn preset_data(from: &probe::Preset) -> Preset {
    let [psp, analog, allow_overlap, fit] = from.marks;
    let [game_scale, across, down] = from.game;
    Preset {
        psp: psp != 0,
        analog: analog != 0,
        allow_overlap: allow_overlap != 0,
        picture_fit: [None, Some(PictureFit::Maximum), Some(PictureFit::KeepClear)]
            [usize::from(fit)],
        game_scale,
        game_offset: [across, down],
        elements: from.places[..from.count]
            .iter()
            .copied()
            .map(rect)
            .collect(),
        ..Preset::default()
    }
}

/// What our reader of orders gives, as numbers.
pub fn given(from: &probe::Settings) -> Given {
    let probe::Settings {
        screen: [w, h],
        picture: [x, y, width, height],
        preset,
        cutouts,
    } = from;
    let [scale, across, down] = preset.game;
    let [psp, analog, allow_overlap, fit] = preset.marks;
    Given {
        numbers: [*w, *h, *x, *y, *width, *height, scale, across, down],
        mode: psp | analog << 1 | allow_overlap << 2,
        fit,
        cutouts: cutouts.at[..cutouts.count].as_flattened().to_vec(),
        saved: preset.places[..preset.count].as_flattened().to_vec(),
    }
}
