//! input.rs and input/picture.rs as they are, taken from PLAYER_SRC by the
//! build script, [`access`] to their functions, private ones included, and the
//! [`order`] of document 01 answered by them.
#![forbid(unsafe_code)]

#[allow(unused)]
mod input {
    include!(concat!(env!("OUT_DIR"), "/input.rs"));
}
/// What input.rs imports from the rest of its program.
mod saves {
    pub fn atomic_write(_: &std::path::Path, _: &[u8]) -> std::io::Result<()> {
        unreachable!("nothing is saved here")
    }
}
pub mod exact;
pub mod float;
pub mod order;
pub mod sheet;
pub mod tracker;
pub mod words;

pub use input::access;
pub use input::{PictureFit, PlayerViewport, Preset, Rect};
