//! Settings written as an order, as document 02's W-201 has it: a writer from
//! the papers alone.
use super::{
    Answer, ODD_MARK, OVERFULL, SHEET_TOO_SMALL, Settings, at_least_0, limited, must, put, put_head,
};
use crate::{PictureFit, Rect};

/// Cutouts or saved numbers that are no whole number of rectangles: a wrong
/// call, no refusal of an order.
pub const BAD_CALL: i32 = 100;
/// The longest order, with every field and both lists full.
pub const ORDER_MOST: usize = 827;

/// Settings as numbers: screen w, h, picture x, y, w, h, game_scale,
/// game_offset x, y; the bytes of tags 3 and 4; four numbers a rectangle.
#[derive(Clone, Debug, Default)]
pub struct Given {
    pub numbers: [f32; 9],
    pub mode: u8,
    pub fit: u8,
    pub cutouts: Vec<f32>,
    pub saved: Vec<f32>,
}

impl From<&Settings> for Given {
    fn from(settings: &Settings) -> Self {
        let numbers = |rects: &[Rect]| rects.iter().flat_map(|r| [r.x, r.y, r.w, r.h]).collect();
        let ([w, h], area, preset) = (settings.screen, settings.area(), &settings.preset);
        let ([across, down], scale) = (preset.game_offset, preset.game_scale);
        let bits = [preset.psp, preset.analog, preset.allow_overlap];
        Self {
            numbers: [w, h, area.x, area.y, area.w, area.h, scale, across, down],
            mode: (0..).zip(bits).map(|(i, bit)| u8::from(bit) << i).sum(),
            fit: match preset.picture_fit {
                None => 0,
                Some(PictureFit::Maximum) => 1,
                Some(PictureFit::KeepClear) => 2,
            },
            cutouts: numbers(&settings.cutouts),
            saved: numbers(&preset.elements),
        }
    }
}

/// "Negative zero is written as plus zero."
fn plus_zero(n: f32) -> f32 {
    if n == 0. { 0. } else { n }
}

/// "A saved rectangle with a non-finite number becomes four times the
/// hexadecimal 7FC00000."
fn kept(saved: [f32; 4]) -> [f32; 4] {
    if saved.iter().all(|n| n.is_finite()) {
        saved.map(plus_zero)
    } else {
        [f32::from_bits(0x7FC0_0000); 4]
    }
}

/// Numbers as rectangles.
fn rects(numbers: &[f32]) -> Answer<&[[f32; 4]]> {
    let (rects, rest) = numbers.as_chunks();
    must(rest.is_empty(), BAD_CALL)?;
    Ok(rects)
}

/// Given settings by their fields.
struct Fields<'a> {
    screen: [f32; 2],
    picture: [f32; 4],
    mode: u8,
    fit: u8,
    game: [f32; 3],
    cutouts: &'a [[f32; 4]],
    saved: &'a [[f32; 4]],
}

impl Given {
    fn fields(&self) -> Answer<Fields<'_>> {
        let [w, h, x, y, width, height, scale, across, down] = self.numbers;
        Ok(Fields {
            screen: [w, h],
            picture: [x, y, width, height],
            mode: self.mode,
            fit: self.fit,
            game: [scale, across, down],
            cutouts: rects(&self.cutouts)?,
            saved: rects(&self.saved)?,
        })
    }

    /// Writes an order at the start of the lent bytes: how many there are.
    pub fn write(&self, out: &mut [u8]) -> Answer<usize> {
        let fields = self.fields()?;
        fields.check()?;
        let length = fields.length();
        let out = out.get_mut(..length).ok_or(SHEET_TOO_SMALL)?;
        fields.put(out);
        Ok(length)
    }

    /// The order's bytes.
    pub fn written(&self) -> Answer<Vec<u8>> {
        let mut out = vec![0; ORDER_MOST];
        let length = self.write(&mut out)?;
        out.truncate(length);
        Ok(out)
    }

    /// The settings after the two replacements: those that are read back.
    pub fn replaced(&self) -> Self {
        let (saved, _) = self.saved.as_chunks();
        Self {
            numbers: self.numbers.map(plus_zero),
            mode: self.mode,
            fit: self.fit,
            cutouts: self.cutouts.iter().copied().map(plus_zero).collect(),
            saved: saved.iter().copied().flat_map(kept).collect(),
        }
    }
}

fn bits(numbers: &[f32]) -> impl Iterator<Item = u32> {
    numbers.iter().map(|n| n.to_bits())
}

/// Equal bit for bit.
impl PartialEq for Given {
    fn eq(&self, other: &Self) -> bool {
        bits(&self.numbers).eq(bits(&other.numbers))
            && (self.mode, self.fit) == (other.mode, other.fit)
            && bits(&self.cutouts).eq(bits(&other.cutouts))
            && bits(&self.saved).eq(bits(&other.saved))
    }
}

impl Fields<'_> {
    /// The reader's refusals, in tag order.
    fn check(&self) -> Answer<()> {
        at_least_0(&limited(self.screen)?)?;
        at_least_0(&limited(self.picture)?[2..])?;
        must(self.mode < 8, ODD_MARK)?;
        must(self.fit <= 2, ODD_MARK)?;
        limited(self.game)?;
        must(self.cutouts.len() <= 16, OVERFULL)?;
        for cutout in self.cutouts {
            limited(*cutout)?;
        }
        must(self.saved.len() <= 32, OVERFULL)
    }

    // Whether a field has another value than its absence means.

    fn has_picture(&self) -> bool {
        let [w, h] = self.screen;
        self.picture != [0., 0., w.max(1.), h.max(1.)]
    }
    fn has_mode(&self) -> bool {
        self.mode != 0
    }
    fn has_fit(&self) -> bool {
        self.fit != 1
    }
    fn has_game(&self) -> bool {
        self.game != [1., 0.5, 0.5]
    }

    fn length(&self) -> usize {
        let field = |there: bool, value: usize| if there { 3 + value } else { 0 };
        let list = |rects: &[[f32; 4]]| field(!rects.is_empty(), 16 * rects.len());
        field(true, 8)
            + field(self.has_picture(), 16)
            + field(self.has_mode(), 1)
            + field(self.has_fit(), 1)
            + field(self.has_game(), 12)
            + list(self.cutouts)
            + list(self.saved)
    }

    /// Puts the fields in tag order into bytes of their length.
    fn put(&self, mut out: &mut [u8]) {
        let out = &mut out;
        put_head(out, 1, 8);
        put_numbers(out, &self.screen);
        if self.has_picture() {
            put_head(out, 2, 16);
            put_numbers(out, &self.picture);
        }
        if self.has_mode() {
            put_head(out, 3, 1);
            put(out, [self.mode]);
        }
        if self.has_fit() {
            put_head(out, 4, 1);
            put(out, [self.fit]);
        }
        if self.has_game() {
            put_head(out, 5, 12);
            put_numbers(out, &self.game);
        }
        if !self.cutouts.is_empty() {
            put_head(out, 6, 16 * self.cutouts.len());
            put_numbers(out, self.cutouts.as_flattened());
        }
        if !self.saved.is_empty() {
            put_head(out, 7, 16 * self.saved.len());
            for n in self.saved.iter().flat_map(|saved| kept(*saved)) {
                put(out, n.to_be_bytes());
            }
        }
    }
}

fn put_numbers(out: &mut &mut [u8], numbers: &[f32]) {
    for n in numbers {
        put(out, plus_zero(*n).to_be_bytes());
    }
}
