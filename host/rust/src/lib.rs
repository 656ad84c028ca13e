//! Thumb control layouts for film tablets.
//!
//! A safe wrapper of the proved library libthumb_layout.a
//! (`tools/prove staticlib thumb_layout` builds it). Nothing is kept between calls but
//! what a [`Tracker`] holds, and every function may be called from any thread.
//! A refused call changes no element of an output, and no tracker.

pub mod button;
mod calls;
mod layout;
mod refusal;
mod settings;
mod tracker;

pub use calls::{film, layout, safe_content, safe_edges, touch, viewport_layout};
pub use layout::{Layout, Rect};
pub use refusal::Refusal;
pub use settings::{Fit, Settings};
pub use tracker::{Finger, Masks, Tracker};

/// Bytes of the longest layout, an analog one. A standard one takes 285, one
/// of a psp 265.
pub const LAYOUT_MOST: usize = 353;

/// Bytes of the longest order that [`Settings`] are written as.
pub const ORDER_MOST: usize = 827;
