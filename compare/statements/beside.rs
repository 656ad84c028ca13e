//! Runs an edited function beside the unedited one on each call that a run makes, and ends at the first difference.
use std::panic::{catch_unwind, AssertUnwindSafe};
use std::sync::atomic::{AtomicBool, AtomicUsize, Ordering};
use std::sync::OnceLock;

static CALLS: AtomicUsize = AtomicUsize::new(0);
static TRYING: AtomicBool = AtomicBool::new(false);

/// The number of the edit that is tried; none in a call that is tried, so that a function that calls itself finds itself unedited.
pub fn edit() -> usize {
    static EDIT: OnceLock<usize> = OnceLock::new();
    if TRYING.load(Ordering::Relaxed) {
        return 0;
    }
    *EDIT.get_or_init(|| std::env::args().nth(1).and_then(|n| n.parse().ok()).unwrap_or(0))
}

/// What a call gives, or that it faults. Debug texts tell 0 from -0, and hold one NaN, as the logic does.
pub fn outcome(call: impl FnOnce() -> String) -> String {
    TRYING.store(true, Ordering::Relaxed);
    let outcome = catch_unwind(AssertUnwindSafe(call));
    TRYING.store(false, Ordering::Relaxed);
    outcome.unwrap_or_else(|_| "a fault".to_string())
}

pub fn compare(inputs: String, right: String, edited: String) {
    CALLS.fetch_add(1, Ordering::Relaxed);
    if right != edited {
        println!("{inputs}\t{right}\t{edited}");
        std::process::exit(0);
    }
}

/// How many calls were compared.
pub fn calls() -> usize {
    CALLS.load(Ordering::Relaxed)
}

/// As the kit's `std::num` has them. All NaNs are one.
pub fn f32_to_bits_with_nan(x: f32) -> u32 {
    if x.is_nan() { 0x7fc0_0000 } else { x.to_bits() }
}

pub fn f32_from_bits_with_nan(n: u32) -> f32 {
    let x = f32::from_bits(n);
    if x.is_nan() { f32::NAN } else { x }
}

pub fn saturating_f64_to_u64(x: f64) -> u64 {
    x as u64
}
