//! Orders compared in every way at once: the layout's bytes or its refusal,
//! the film sheet, touches, a viewport; and demand 3 measured of what was
//! written. Each order is read and laid out by the Rust once. [`written`]
//! compares the writer of orders, [`sheets`] more film sheets, [`fingers`]
//! trackers.
pub mod fingers;
pub mod sheets;
pub mod written;

use crate::{
    driver::{Class, Tally, lines, shown},
    generate::{any_number, edge_touch},
    host::{layout_classes, lent_length, tie, tops, touched},
    lent,
    masks::mask_near,
    nearest::nearest_hypot,
    orders::{self, Order},
    random::Random,
    widest::{self, Measured},
};
use ours::{
    host,
    probe::{self, ONCE},
};
use player::{
    Rect,
    access::{
        LayoutData,
        native::{self, Layout},
    },
    order::{self, Answer, ROOM, Settings},
    sheet,
    words::Value,
};
use std::{
    fmt,
    panic::{AssertUnwindSafe, catch_unwind},
};

/// How many orders, settings, sheets or finger calls a block has.
pub const BLOCK: u64 = 10_000;

/// What is compared of an order, then of settings, then of orders for sheets,
/// then of fingers.
#[derive(Clone, Copy)]
enum What {
    Layout,
    Sheet,
    Touch,
    Mask,
    Viewport,
    Widest,
    Written,
    ReadByOurs,
    ReadByTheirs,
    Again,
    EveryField,
    FromOrder,
    EdgeSheet,
    Finger,
}

const NAMES: [&str; 14] = [
    "layouts and refusals, every byte of the lent output",
    "film sheets, 1,024 bytes and the length",
    "touches by order",
    "touches by mask_near on the order's layout",
    "viewports, every byte of the lent output",
    "demand 3, in exact arithmetic",
    "settings written, every byte of the lent output",
    "written orders, read back by the library",
    "written orders, read back by the Rust's reader",
    "settings read back, written to the same bytes",
    "settings in an order with every field, read or refused as they are written",
    "generated orders, read, written and read back",
    "film sheets with edges next to halves, 1,024 bytes and the length",
    "finger calls, both masks and every byte of the tracker",
];

/// How many cases there were, and how many of them differed: listed in
/// docs/DIFFERENCES.md, or not.
#[derive(Clone, Copy, Default)]
struct Compared {
    cases: u64,
    listed: u64,
    unlisted: u64,
}

/// What was compared, and what came of it.
#[derive(Default)]
pub struct Counts {
    compared: [Compared; NAMES.len()],
    tally: Tally,
    /// The most that a rival was wider than its game, and that a game met an
    /// element both across and down.
    wider: Option<f64>,
    meets: Option<f64>,
    /// The unlisted differences, as requests for the oracle with both answers.
    pub shown: Vec<String>,
}

impl Counts {
    pub fn orders(&self) -> u64 {
        self.compared[What::Layout as usize].cases
    }
    pub fn settings(&self) -> u64 {
        self.compared[What::Written as usize].cases
    }
    pub fn sheets(&self) -> u64 {
        self.compared[What::EdgeSheet as usize].cases
    }
    pub fn fingers(&self) -> u64 {
        self.compared[What::Finger as usize].cases
    }
    pub fn unlisted(&self) -> u64 {
        self.compared.iter().map(|c| c.unlisted).sum()
    }
    fn class(&mut self, class: Class) {
        *self.tally.entry(class).or_default() += 1;
    }
    /// Counts a case; the oracle takes `input` after the function's name.
    fn compare<I: Value, O: Value + PartialEq>(
        &mut self,
        what: What,
        function: &str,
        input: impl FnOnce() -> I,
        our: O,
        their: O,
    ) {
        let compared = &mut self.compared[what as usize];
        compared.cases += 1;
        if our != their {
            compared.unlisted += 1;
            let shown = shown(function, &input(), &Some(our), &Some(their));
            self.shown.push(shown);
        }
    }
    /// Counts a case in which a side panicked.
    fn panicked(&mut self, what: What, function: &str, input: &impl Value) {
        self.compared[what as usize].unlisted += 1;
        self.shown.push(shown::<u16>(function, input, &None, &None));
    }
    /// Adds what was compared, without the texts.
    pub fn add(&mut self, more: Counts) {
        for (to, from) in self.compared.iter_mut().zip(more.compared) {
            to.cases += from.cases;
            to.listed += from.listed;
            to.unlisted += from.unlisted;
        }
        for (class, count) in more.tally {
            *self.tally.entry(class).or_default() += count;
        }
        self.wider = greatest(self.wider, more.wider);
        self.meets = greatest(self.meets, more.meets);
    }
}

fn greatest(a: Option<f64>, b: Option<f64>) -> Option<f64> {
    a.into_iter().chain(b).reduce(f64::max)
}

impl fmt::Display for Counts {
    fn fmt(&self, f: &mut fmt::Formatter) -> fmt::Result {
        let compared = NAMES.iter().zip(self.compared);
        for (name, c) in compared.filter(|(_, c)| c.cases > 0) {
            write!(f, "{name}: {} cases, ", c.cases)?;
            if c.listed > 0 {
                write!(f, "{} differences of hypot's, ", c.listed)?;
            }
            writeln!(f, "{} unlisted differences", c.unlisted)?;
        }
        if let (Some(wider), Some(meets)) = (self.wider, self.meets) {
            write!(
                f,
                "demand 3, of 0.0625: a rival wider by at most {wider:.7}, "
            )?;
            writeln!(f, "an element met by at most {meets:.7}")?;
        }
        for line in lines(&self.tally) {
            writeln!(f, "{line}")?;
        }
        let cases = |what: What| self.compared[what as usize].cases;
        let listed: u64 = self.compared.iter().map(|c| c.listed).sum();
        write!(
            f,
            "{} orders, {} touches, {} viewports, demand 3 measured {} times, {} settings, {} sheets alone, {} finger calls: {listed} listed, {} unlisted differences",
            self.orders(),
            cases(What::Touch) + cases(What::Mask),
            cases(What::Viewport),
            cases(What::Widest),
            self.settings(),
            self.sheets(),
            self.fingers(),
            self.unlisted()
        )
    }
}

/// The orders of one block. The same seed and number give the same orders.
pub fn block(seed: u64, number: u64) -> Counts {
    let start = Random::new(seed.wrapping_add(number << 32)).bits();
    let r = &mut Random::new(start);
    let mut counts = Counts::default();
    for _ in 0..BLOCK {
        let (order, aimed) = case(r);
        let mut one = || Case::new(&order).compare(aimed, r, &mut counts);
        if catch_unwind(AssertUnwindSafe(&mut one)).is_err() {
            counts.panicked(What::Layout, "order_layout", &order);
        }
    }
    counts
}

/// An order; now and then one with a touch aimed at a tie of hypot, or with
/// edges next to halves of tenths, and often one that is hard for demand 3.
fn case(r: &mut Random) -> (Order, Option<[f32; 2]>) {
    match r.below(64) {
        0 => {
            let (order, at, _) = tie(r);
            (order, Some(at))
        }
        1..9 => (orders::keep_clear(r), None),
        9..11 => (orders::edges(r), None),
        _ => (orders::order(r), None),
    }
}

/// An order, what it says, and the Rust's layout.
struct Case<'a> {
    order: &'a Order,
    read: Answer<Settings>,
    layout: Answer<Layout>,
}

impl<'a> Case<'a> {
    fn new(order: &'a Order) -> Self {
        let read = order::read(&order.bytes);
        let layout = read.as_ref().map(Settings::layout).map_err(|n| *n);
        Self {
            order,
            read,
            layout,
        }
    }

    fn compare(&self, aimed: Option<[f32; 2]>, r: &mut Random, counts: &mut Counts) {
        let (length, fill) = (lent_length(r, self.order), r.bits() as u8);
        let layout = self.layout.as_ref().map_err(|n| *n);
        let ours = lent(length, fill, |out| host::layout(&self.order.bytes, out));
        let theirs = lent(length, fill, |out| order::write(layout?, out));
        let (answer, written) = ours;
        let bytes = || self.order.bytes.clone();
        let input = || (bytes(), length, fill);
        counts.compare(What::Layout, "order_layout", input, ours, theirs);
        for class in layout_classes(self.order, &self.read, length, answer) {
            counts.class(class);
        }
        if answer.is_ok() && layout.is_ok_and(orders::negative_zero) {
            counts.class(("accepted, numbers", "with negative zero"));
        }
        let ours = host::film_sheet(&self.order.bytes);
        let theirs = sheet::padded(&sheet::sheet(layout));
        counts.compare(What::Sheet, "order_film", bytes, ours, theirs);
        match layout {
            Ok(layout) => self.touches(layout, aimed, r, counts),
            Err(refusal) => {
                let at = [any_number(r), any_number(r)];
                let ours = host::touch(&self.order.bytes, at, 0);
                let input = || (bytes(), at, 0u16);
                counts.compare(What::Touch, "order_touch", input, ours, Err(refusal));
                counts.class(("touch", touched(ours)));
            }
        }
        if r.below(4) == 0 {
            self.viewport(length, fill, r, counts);
        }
        if let (Ok(settings), Ok(n)) = (&self.read, answer)
            && widest::kept_clear(&settings.preset)
        {
            self.widest(settings, &written[..n], counts);
        }
    }

    /// Four touches on its layout, of which now and then one is by the order.
    fn touches(
        &self,
        layout: &Layout,
        mut aimed: Option<[f32; 2]>,
        r: &mut Random,
        counts: &mut Counts,
    ) {
        let data = LayoutData::from(layout);
        let lent = lent::layout(&data);
        let by_order = aimed.is_some() || r.below(4) == 0;
        let first = if by_order { What::Touch } else { What::Mask };
        for what in [first, What::Mask, What::Mask, What::Mask] {
            let at = aimed.take().unwrap_or_else(|| edge_touch(r, layout));
            let previous = if r.yes() { 0 } else { r.bits() as u16 };
            let [x, y] = at;
            let ours = match what {
                What::Touch => host::touch(&self.order.bytes, at, previous),
                _ => Ok(probe::mask_near(&lent, x, y, previous, ONCE)),
            };
            let theirs = native::mask_near(layout, x, y, previous);
            let nearest = mask_near(&data, at, previous, nearest_hypot);
            let platform = mask_near(&data, at, previous, f32::hypot);
            counts.class(("touch", touched(ours)));
            // The copy with the platform's hypot is the Rust: then what the
            // nearest one changes is hypot's.
            if ours == Ok(nearest) && theirs == platform && nearest != theirs {
                counts.compared[what as usize].cases += 1;
                counts.compared[what as usize].listed += 1;
                continue;
            }
            let ours = (ours, nearest, platform);
            let theirs = (Ok(theirs), theirs, theirs);
            let input = || (self.order.bytes.clone(), at, previous);
            counts.compare(what, "order_touch", input, ours, theirs);
        }
    }

    fn viewport(&self, length: usize, fill: u8, r: &mut Random, counts: &mut Counts) {
        let tops = tops(r);
        let settings = self.read.as_ref().map_err(|n| *n);
        let ours = lent(length, fill, |out| {
            host::viewport_layout(&self.order.bytes, tops, out)
        });
        let theirs = lent(length, fill, |out| {
            order::write_viewport(settings?, tops, out)
        });
        let input = || (self.order.bytes.clone(), tops, length, fill);
        counts.compare(What::Viewport, "order_viewport", input, ours, theirs);
    }

    fn widest(&self, settings: &Settings, layout: &[u8], counts: &mut Counts) {
        let compared = &mut counts.compared[What::Widest as usize];
        compared.cases += 1;
        let measured = widest::measure(settings, layout);
        // Where the centred search finds a picture, that is the game.
        let sound = |m: &Measured| m.holds && (m.found == 0. || m.found == m.width);
        let Some(measured) = measured.filter(sound) else {
            compared.unlisted += 1;
            let order = shown::<u16>("order_layout", self.order, &None, &None);
            counts.shown.push(format!("{measured:?} {order}"));
            return;
        };
        counts.wider = greatest(counts.wider, Some(measured.wider));
        counts.meets = greatest(counts.meets, Some(measured.meets));
        for class in widest_classes(settings, measured) {
            counts.class(class);
        }
    }
}

/// A function's answer, and the bytes as it leaves them: those lent to it, and
/// more after them.
fn lent(
    length: usize,
    fill: u8,
    call: impl FnOnce(&mut [u8]) -> Answer<usize>,
) -> (Answer<usize>, [u8; ROOM]) {
    let mut out = [fill; ROOM];
    (call(&mut out[..length]), out)
}

fn widest_classes(settings: &Settings, measured: Measured) -> [Class; 5] {
    let game = match measured {
        Measured { width: 0., .. } => "empty",
        Measured { found: 0., .. } => "beside the centre",
        _ => "centred",
    };
    let some = |list: &[Rect]| if list.is_empty() { "none" } else { "some" };
    let psp = settings.preset.psp;
    [
        ("demand 3, area", settings.picture.map_or("absent", area)),
        ("demand 3, game", game),
        ("demand 3, shape", if psp { "480 to 272" } else { "4 to 3" }),
        ("demand 3, cutouts", some(&settings.cutouts)),
        ("demand 3, saved", some(&settings.preset.elements)),
    ]
}

fn area(r: Rect) -> &'static str {
    let numbers = [r.x, r.y, r.w, r.h];
    if r.w == 0. || r.h == 0. {
        "empty"
    } else if numbers.iter().any(|n| n.abs() >= 8191.) {
        "at the limits"
    } else if r.w <= 32. || r.h <= 32. {
        "at most 32 wide or high"
    } else {
        "other"
    }
}

#[cfg(test)]
mod tests {
    use super::*;

    #[test]
    fn differences_are_counted_and_shown() {
        let mut counts = Counts::default();
        let mut sheets = |ours, theirs| {
            let mut more = Counts::default();
            more.compare(What::Sheet, "order_film", || 7u16, ours, theirs);
            let shown = more.shown.clone();
            counts.add(more);
            (shown, counts.to_string())
        };
        let (shown, _) = sheets(1u16, 1);
        assert_eq!(shown, [""; 0]);
        let (shown, text) = sheets(1, 2);
        assert_eq!(shown, ["order_film 7\n  ours   1\n  theirs 2"]);
        assert!(
            text.ends_with(" 0 listed, 1 unlisted differences"),
            "{text}"
        );
        assert!(text.contains("length: 2 cases, 1 unlisted"), "{text}");
    }

    #[test]
    fn a_block_is_the_same_again_and_compares_everything() {
        let all = |seed, number| {
            let mut counts = Counts::default();
            for block in [block, written::block, sheets::block, fingers::block] {
                let more = block(seed, number);
                assert_eq!(more.shown, [""; 0]);
                counts.add(more);
            }
            counts
        };
        let counts = all(1, 0);
        let [orders, settings] = [counts.orders(), counts.settings()];
        let counted = [orders, settings, counts.sheets(), counts.fingers()];
        assert_eq!(counted, [BLOCK; 4]);
        assert!(counts.compared.iter().all(|c| c.cases > 1000));
        assert_eq!(counts.to_string(), all(1, 0).to_string());
        assert_ne!(counts.to_string(), all(1, 1).to_string());
        assert_ne!(counts.to_string(), all(2, 0).to_string());
    }
}
