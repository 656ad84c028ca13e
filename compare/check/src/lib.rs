//! Comparison of functions over generated cases.
#![forbid(unsafe_code)]
pub mod driver;
pub mod fingers;
pub mod generate;
pub mod halves;
#[cfg(feature = "probe")]
pub mod host;
pub mod hypot;
#[cfg(feature = "probe")]
pub mod inner;
#[cfg(feature = "probe")]
pub mod lent;
#[cfg(feature = "probe")]
pub mod live;
pub mod masks;
pub mod nearest;
pub mod orders;
#[cfg(feature = "probe")]
pub mod picture;
pub mod random;
pub mod settings;
#[cfg(feature = "probe")]
pub mod uncalled;
pub mod widest;

/// The number that follows an option.
pub fn number_after(option: &str, words: &mut impl Iterator<Item = String>) -> Result<u64, String> {
    let value = words.next().ok_or(format!("{option} needs a number"))?;
    value.parse().map_err(|e| format!("{option} {value}: {e}"))
}
