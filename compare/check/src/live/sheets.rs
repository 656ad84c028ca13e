//! Film sheets of orders that have edges at and next to halves of tenths.
use super::{BLOCK, Counts, What};
use crate::{
    driver::Class,
    halves,
    orders::{self, Order},
    random::Random,
};
use ours::host;
use player::{
    order::{self, Settings},
    sheet,
};
use std::panic::{AssertUnwindSafe, catch_unwind};

/// The orders of one block. The same seed and number give the same orders,
/// which are not made as those of the other blocks are.
pub fn block(seed: u64, number: u64) -> Counts {
    let start = Random::new(seed.wrapping_add(number << 32).reverse_bits()).bits();
    let r = &mut Random::new(start);
    let mut counts = Counts::default();
    for _ in 0..BLOCK {
        let order = orders::edges(r);
        let one = || compare(&order, &mut counts);
        if catch_unwind(AssertUnwindSafe(one)).is_err() {
            counts.panicked(What::EdgeSheet, "order_film", &order);
        }
    }
    counts
}

fn compare(order: &Order, counts: &mut Counts) {
    let read = order::read(&order.bytes);
    let layout = read.as_ref().map(Settings::layout).map_err(|n| *n);
    let ours = host::film_sheet(&order.bytes);
    let theirs = sheet::padded(&sheet::sheet(layout.as_ref().map_err(|n| *n)));
    let input = || order.bytes.clone();
    counts.compare(What::EdgeSheet, "order_film", input, ours, theirs);
    for class in layout.iter().flat_map(halves::of_layout) {
        counts.class(class);
    }
    for class in read.iter().flat_map(saved_classes) {
        counts.class(class);
    }
}

/// What saved numbers an order has that are no usual parts of a screen.
fn saved_classes(settings: &Settings) -> Vec<Class> {
    let saved = settings.preset.elements.iter();
    let numbers: Vec<f32> = saved.flat_map(|r| [r.x, r.y, r.w, r.h]).collect();
    let odd: [(&str, fn(&f32) -> bool); 3] = [
        ("subnormal", |n| n.is_subnormal()),
        ("over 2^20", |n| n.is_finite() && n.abs() > 1048576.),
        ("not finite", |n| !n.is_finite()),
    ];
    let met = odd.iter().filter(|(_, is)| numbers.iter().any(is));
    met.map(|(name, _)| ("film edges, saved", *name)).collect()
}
