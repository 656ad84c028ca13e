//! A layout as plain data.
use super::super::{Control, Layout, Rect};

/// Each label with the number of its bit in a button mask. A control's label
/// is given as an index into this table.
pub const LABELS: [(&str, u16); 12] = [
    ("TRI", 9),
    ("O", 8),
    ("X", 0),
    ("SQ", 1),
    ("L1", 10),
    ("L2", 12),
    ("R2", 13),
    ("R1", 11),
    ("SELECT", 2),
    ("START", 3),
    ("L3", 14),
    ("R3", 15),
];

#[derive(Clone, Debug, PartialEq)]
pub struct ControlData {
    pub bounds: Rect,
    /// Index into [`LABELS`].
    pub label: usize,
}

/// The public fields of a layout. Its list of cutouts is left out: the one
/// function that reads the list sets it first.
#[derive(Clone, Debug, PartialEq)]
pub struct LayoutData {
    pub game: Rect,
    pub dpad: Rect,
    pub controls: Vec<ControlData>,
    pub pause: Rect,
    pub playback: Rect,
    pub speed: Rect,
    pub mute: Rect,
    pub sticks: Vec<Rect>,
}

impl LayoutData {
    /// All elements, in the order of their indices.
    pub fn elements(&self) -> Vec<Rect> {
        let layout = Layout::from(self);
        (0..layout.element_count()).map(|i| layout.element(i)).collect()
    }
    pub fn labels(&self) -> impl Iterator<Item = &'static str> {
        self.controls.iter().map(|c| LABELS[c.label].0)
    }
}

impl From<&LayoutData> for Layout {
    fn from(data: &LayoutData) -> Self {
        let control = |c: &ControlData| {
            let (label, bit) = LABELS[c.label];
            Control {
                bounds: c.bounds,
                label,
                mask: 1 << bit,
            }
        };
        Self {
            game: data.game,
            dpad: data.dpad,
            controls: data.controls.iter().map(control).collect(),
            pause: data.pause,
            playback: data.playback,
            speed: data.speed,
            mute: data.mute,
            sticks: data.sticks.clone(),
            cutouts: Vec::new(),
        }
    }
}

impl From<Layout> for LayoutData {
    fn from(layout: Layout) -> Self {
        (&layout).into()
    }
}

impl From<&Layout> for LayoutData {
    fn from(layout: &Layout) -> Self {
        let control = |c: &Control| {
            let label = LABELS.iter().position(|(name, _)| *name == c.label);
            let label = label.expect("every label is in the table");
            assert_eq!(c.mask, 1 << LABELS[label].1, "a label has one bit");
            ControlData {
                bounds: c.bounds,
                label,
            }
        };
        Self {
            game: layout.game,
            dpad: layout.dpad,
            controls: layout.controls.iter().map(control).collect(),
            pause: layout.pause,
            playback: layout.playback,
            speed: layout.speed,
            mute: layout.mute,
            sticks: layout.sticks.clone(),
        }
    }
}
