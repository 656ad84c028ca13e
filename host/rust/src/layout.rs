use crate::{LAYOUT_MOST, Refusal, button};

/// A rectangle in layout units.
#[derive(Clone, Copy, Debug, Default, PartialEq)]
pub struct Rect {
    pub x: f32,
    pub y: f32,
    pub w: f32,
    pub h: f32,
}

/// A layout, read from the bytes that [`crate::layout`] and
/// [`crate::viewport_layout`] write.
#[derive(Clone, Debug, PartialEq)]
pub struct Layout {
    /// Where the picture of the game is.
    pub game: Rect,
    pub dpad: Rect,
    /// Each control, with its bit of [`button`].
    pub controls: Vec<(Rect, u16)>,
    pub pause: Rect,
    pub playback: Rect,
    pub speed: Rect,
    pub mute: Rect,
    /// None, the left one, or the left and the right one.
    pub sticks: Vec<Rect>,
}

impl Layout {
    /// The layout of an order.
    pub fn of_order(order: &[u8]) -> Result<Layout, Refusal> {
        written(|out| crate::layout(order, out))
    }

    /// The layout of a viewport, as [`crate::viewport_layout`] has it.
    pub fn of_viewport(
        order: &[u8],
        reusable_top: f32,
        covered_top: f32,
    ) -> Result<Layout, Refusal> {
        written(|out| crate::viewport_layout(order, reusable_top, covered_top, out))
    }

    /// The layout that these bytes hold; none if they are not exactly one.
    pub fn from_bytes(bytes: &[u8]) -> Option<Layout> {
        let (game, rest) = field(1, bytes)?;
        let (elements, rest) = field(2, rest)?;
        let (masks, rest) = field(3, rest)?;
        let game: Vec<Rect> = rects(game)?;
        let elements: Vec<Rect> = rects(elements)?;
        let count = masks.len() / 2;
        let well_formed = game.len() == 1 && masks.len().is_multiple_of(2) && rest.is_empty();
        if !well_formed || !(count + 5..=count + 7).contains(&elements.len()) {
            return None;
        }
        let masks = masks.chunks(2).map(|m| u16::from_be_bytes([m[0], m[1]]));
        Some(Layout {
            game: game[0],
            dpad: elements[0],
            controls: elements[1..].iter().copied().zip(masks).collect(),
            pause: elements[count + 1],
            playback: elements[count + 2],
            speed: elements[count + 3],
            mute: elements[count + 4],
            sticks: elements[count + 5..].to_vec(),
        })
    }

    /// The game and each element with the name that a film sheet gives it, in
    /// the order of the written layout.
    pub fn lines(&self) -> Vec<(&'static str, Rect)> {
        let mut lines = vec![("GAME", self.game), ("DPAD", self.dpad)];
        let name = |bit| button::name(bit).unwrap_or("?");
        lines.extend(self.controls.iter().map(|&(r, bit)| (name(bit), r)));
        lines.push(("PAUSE", self.pause));
        lines.push(("PLAY", self.playback));
        lines.push(("SPEED", self.speed));
        lines.push(("MUTE", self.mute));
        lines.extend(
            ["LEFT", "RIGHT"]
                .into_iter()
                .zip(self.sticks.iter().copied()),
        );
        lines
    }
}

/// The layout that a call writes.
fn written(call: impl FnOnce(&mut [u8]) -> Result<usize, Refusal>) -> Result<Layout, Refusal> {
    let mut out = [0; LAYOUT_MOST];
    let length = call(&mut out)?;
    Ok(Layout::from_bytes(&out[..length]).expect("a written layout is whole"))
}

/// The value of a field with this tag, and what follows the field.
fn field(tag: u8, bytes: &[u8]) -> Option<(&[u8], &[u8])> {
    let (head, rest) = bytes.split_at_checked(3)?;
    if head[0] != tag {
        return None;
    }
    rest.split_at_checked(u16::from_be_bytes([head[1], head[2]]).into())
}

fn rects(value: &[u8]) -> Option<Vec<Rect>> {
    let number = |b: &[u8]| f32::from_be_bytes([b[0], b[1], b[2], b[3]]);
    let rect = |b: &[u8]| Rect {
        x: number(&b[0..4]),
        y: number(&b[4..8]),
        w: number(&b[8..12]),
        h: number(&b[12..16]),
    };
    value
        .len()
        .is_multiple_of(16)
        .then(|| value.chunks(16).map(rect).collect())
}
