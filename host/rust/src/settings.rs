use crate::{ORDER_MOST, Rect, Refusal, calls};

/// How large the picture of the game is.
#[derive(Clone, Copy, Debug, PartialEq, Eq, Hash)]
#[repr(u8)]
pub enum Fit {
    /// Maximum if the game has its whole size in the middle, else KeepClear.
    Unset = 0,
    /// As large as its area allows.
    Maximum = 1,
    /// As large as it can be without meeting an element.
    KeepClear = 2,
}

/// What an order says. README.md, "The interface for hosts", has the limits of
/// its numbers.
///
/// ```
/// use thumb_layout::{Fit, Layout, Settings};
///
/// let settings = Settings {
///     analog: true,
///     fit: Fit::KeepClear,
///     ..Settings::new(1280., 800.)
/// };
/// let order = settings.to_order()?;
/// assert_eq!(Layout::of_order(&order)?.sticks.len(), 2);
/// # Ok::<(), thumb_layout::Refusal>(())
/// ```
#[derive(Clone, Debug, PartialEq)]
pub struct Settings {
    /// The screen's w and h.
    pub screen: [f32; 2],
    /// The rectangle that the game may take. None is the screen, at 0, 0, with
    /// w and h raised to at least 1; that rectangle itself gives the same order.
    pub picture: Option<Rect>,
    pub psp: bool,
    pub analog: bool,
    /// The game may lie under controls.
    pub allow_overlap: bool,
    pub fit: Fit,
    /// The game's size factor.
    pub game_scale: f32,
    /// The game's offset across and down.
    pub game_offset: [f32; 2],
    /// Camera holes, at most 16.
    pub cutouts: Vec<Rect>,
    /// The saved arrangement, at most 32 rectangles of any numbers, as parts of
    /// the screen's w and h.
    pub saved: Vec<Rect>,
}

impl Settings {
    /// A screen, and for the rest what an order with nothing else means.
    pub fn new(w: f32, h: f32) -> Settings {
        Settings {
            screen: [w, h],
            picture: None,
            psp: false,
            analog: false,
            allow_overlap: false,
            fit: Fit::Maximum,
            game_scale: 1.,
            game_offset: [0.5, 0.5],
            cutouts: vec![],
            saved: vec![],
        }
    }

    /// The order of these settings, as [`Settings::write_order`] writes it.
    pub fn to_order(&self) -> Result<Vec<u8>, Refusal> {
        let mut out = [0; ORDER_MOST];
        let length = self.write_order(&mut out)?;
        Ok(out[..length].to_vec())
    }

    /// Writes the order of these settings to the start of `out`, and gives the
    /// number of bytes, at most [`ORDER_MOST`]. Later bytes stay.
    ///
    /// It is the shortest order that is read as these settings after two
    /// replacements: negative zero becomes plus zero, and a saved rectangle with
    /// a number that is not finite becomes four times the NaN 7FC00000.
    ///
    /// Settings are refused as an order that holds them: the first of
    /// [`Refusal::OffTheScale`] and [`Refusal::Overfull`] in the order of the
    /// tags, then [`Refusal::SheetTooSmall`].
    pub fn write_order(&self, out: &mut [u8]) -> Result<usize, Refusal> {
        let [w, h] = self.screen;
        let whole = Rect {
            x: 0.,
            y: 0.,
            w: w.max(1.),
            h: h.max(1.),
        };
        let picture = self.picture.unwrap_or(whole);
        let [across, down] = self.game_offset;
        let numbers = [
            w,
            h,
            picture.x,
            picture.y,
            picture.w,
            picture.h,
            self.game_scale,
            across,
            down,
        ];
        let [psp, analog, overlap] = [self.psp, self.analog, self.allow_overlap].map(u8::from);
        calls::write_order(
            &numbers,
            psp | analog << 1 | overlap << 2,
            self.fit as u8,
            &rects(&self.cutouts),
            &rects(&self.saved),
            out,
        )
    }
}

/// The settings of a screen of 0 by 0, since no order lacks its screen: for
/// `..Settings::default()` beside a screen.
impl Default for Settings {
    fn default() -> Settings {
        Settings::new(0., 0.)
    }
}

fn rects(list: &[Rect]) -> Vec<[f32; 4]> {
    list.iter().map(|r| [r.x, r.y, r.w, r.h]).collect()
}
