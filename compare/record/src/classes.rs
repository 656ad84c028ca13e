//! What the orders of a list are: counts for its README.
use check::{
    masks::pressed,
    orders::{Order, fit_word, negative_zero},
};
use player::{
    Rect,
    access::{self, LayoutData, picture},
    order::{Answer, SHEET_TOO_SMALL, Settings},
};
use std::{collections::BTreeMap, fmt};

/// How many there were of each class: what it is told by, and its name.
#[derive(Default)]
pub struct Tally(BTreeMap<(&'static str, String), u64>);

impl Tally {
    pub fn add(&mut self, by: &'static str, name: impl ToString) {
        *self.0.entry((by, name.to_string())).or_default() += 1;
    }
    pub fn layout(&mut self, order: &Order, answer: Answer<u16>) {
        match order.damage {
            "none" => self.add("kind, undamaged", order.kind),
            damage => self.add("damage", damage),
        }
        match answer {
            Ok(length) => self.add("layout of", format!("{length} bytes")),
            Err(refusal) => self.add("refusal", format!("{refusal}:")),
        }
    }
    pub fn accepted(&mut self, settings: &Settings) {
        let preset = &settings.preset;
        let yes = |b| if b { "yes" } else { "no" };
        let mode = match (preset.psp, preset.analog) {
            (false, false) => "standard",
            (false, true) => "analog",
            (true, false) => "psp",
            (true, true) => "psp and analog",
        };
        self.add("accepted, mode", mode);
        self.add("accepted, fit", fit_word(preset.picture_fit));
        self.add("accepted, overlap allowed", yes(preset.allow_overlap));
        self.add("accepted, tag 2 given", yes(settings.picture.is_some()));
        self.add("accepted, cutouts", yes(!settings.cutouts.is_empty()));
        let zero = negative_zero(&settings.layout());
        self.add("accepted, negative zero in the layout", yes(zero));
        self.add("accepted, arrangement", arrangement(settings));
    }
    pub fn written(&mut self, order: &Order, answer: Answer<u16>) {
        let name = match answer {
            Ok(length) if usize::from(length) < order.bytes.len() => "shorter than the order",
            Ok(_) => "as long as the order",
            Err(SHEET_TOO_SMALL) => "one byte short",
            Err(_) => "refused by the reader",
        };
        self.add("written orders", name);
    }
    pub fn touch(&mut self, answer: Answer<u16>) {
        self.add("touches", answer.map_or("refused", pressed));
    }
}

impl fmt::Display for Tally {
    fn fmt(&self, f: &mut fmt::Formatter) -> fmt::Result {
        let mut before = "";
        for ((by, name), count) in &self.0 {
            if *by == before {
                write!(f, ", {name} {count}")?;
            } else {
                let end = if before.is_empty() { "" } else { " |\n" };
                write!(f, "{end}| {by} | {name} {count}")?;
            }
            before = by;
        }
        write!(f, " |")
    }
}

/// The arrangement that a layout has, found among those that the Rust makes for
/// the settings: the first whose controls, clear of the cutouts, are the
/// layout's.
fn arrangement(settings: &Settings) -> &'static str {
    let preset = &settings.preset;
    if !preset.elements.is_empty() {
        return "saved";
    }
    let [w, h] = settings.screen.map(|n| n.max(1.));
    let cutouts = &settings.cutouts;
    let area = settings.area();
    let (psp, analog) = (preset.psp, preset.analog || preset.psp);
    // The game under the same fit at size factor 1.
    let mut plain = settings.clone();
    plain.preset.picture_fit = Some(access::picture_fit(preset));
    (plain.preset.game_scale, plain.preset.game_offset) = (1., [0.5; 2]);
    let game = plain.layout().game;
    let bottom = (game.y + game.h).clamp(0., h);
    let half = |x| Rect::new(x, bottom, w / 2., h - bottom);
    let [left, right] = [game.x, game.x + game.w].map(|x| x.clamp(0., w));
    let beside = [(0., left), (right, w - right)].map(|(x, w)| Rect::new(x, 0., w, h));
    let below = Rect::new(0., bottom, w, h - bottom);
    let default = match (psp, analog) {
        (true, _) => Some(access::psp(w, h)),
        (_, true) => Some(access::analog_default(w, h)),
        _ => None,
    };
    let standard = |layout: LayoutData| (!analog).then_some(layout);
    let candidates = [
        ("analog or psp default", default),
        ("arranged", standard(access::arranged(w, h, false))),
        ("arranged (compact)", standard(access::arranged(w, h, true))),
        (
            "side rails",
            standard(access::side_rails(w, h, area.h, cutouts)),
        ),
        (
            "controller band",
            access::controller_band(w, h, analog, psp, area),
        ),
        (
            "camera rails",
            access::analog_camera_rails(w, h, area, cutouts, psp),
        ),
        (
            "picture.rs: a row below",
            picture::horizontal(w, h, below, analog, psp),
        ),
        (
            "picture.rs: stacks below",
            picture::vertical(w, h, half(0.), half(w / 2.), analog, psp),
        ),
        (
            "picture.rs: stacks beside",
            picture::vertical(w, h, beside[0], beside[1], analog, psp),
        ),
    ];
    let layout = LayoutData::from(settings.layout());
    let made = candidates.into_iter().find(|(_, candidate)| {
        let controls = |l: &LayoutData| (l.dpad, l.controls.clone(), l.sticks.clone());
        candidate.as_ref().is_some_and(|candidate| {
            let clear = access::avoid_cutouts(candidate, w, h, cutouts);
            controls(&clear) == controls(&layout)
        })
    });
    match made {
        Some((name, _)) => name,
        None if cutouts.is_empty() => "landscape row",
        // The pass over the cutouts also sees the toolbar, which the Rust may
        // have moved before.
        None => "another (off the cutouts)",
    }
}
