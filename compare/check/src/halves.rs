//! How the edges of a film sheet lie to halves of tenths, where it is decided
//! how they are rounded; in exact arithmetic.
use crate::driver::Class;
use player::{Rect, access::native::Layout, exact::Exact, sheet::edge};

/// Ways in which an edge can be hard to round.
const WAYS: [&str; 7] = [
    "at a half",
    "at a half below 0",
    "no f32, within 2^-10 of a half",
    "within 2^-35 of a half, not at it",
    "size not as rounded by itself",
    "not as the f32 sum",
    "not as the f64 sum",
];

fn ways(x: f32, w: f32) -> [bool; WAYS.len()] {
    let exact = |n| Exact::of(n).expect("a finite number");
    let (sum, rounded) = (exact(x) + exact(w), edge(x, w));
    // How far ten times the edge is above the half next below it.
    let above = sum.times(10) + Exact::HALF - exact(rounded as f32);
    let within = |exponent| {
        let distance = exact(2f32.powi(exponent)).times(10);
        above <= distance || above + distance >= exact(1.)
    };
    let at = above == Exact::ZERO;
    let by_f64 = ((f64::from(x) + f64::from(w)) * 10. + 0.5).floor();
    [
        at,
        at && rounded < 0,
        exact(x + w) != sum && within(-10),
        !at && within(-35),
        rounded - edge(x, 0.) != edge(w, 0.),
        rounded != edge(x + w, 0.),
        rounded != by_f64 as i128,
    ]
}

/// The ways of the edge x + w.
pub fn of_edge(x: f32, w: f32) -> Vec<Class> {
    met("film edge", [(x, w)])
}

/// Those that some right or lower edge has, of elements and of the game.
pub fn of_layout(layout: &Layout) -> Vec<Class> {
    let edges = |r: Rect| [(r.x, r.w), (r.y, r.h)];
    let elements = (0..layout.element_count()).map(|i| layout.element(i));
    let mut classes = met("film edges of elements", elements.flat_map(edges));
    classes.extend(met("film edges of the game", edges(layout.game)));
    classes
}

fn met(by: &'static str, edges: impl IntoIterator<Item = (f32, f32)>) -> Vec<Class> {
    let mut met = [false; WAYS.len()];
    for (x, w) in edges {
        for (met, way) in met.iter_mut().zip(ways(x, w)) {
            *met |= way;
        }
    }
    let met = WAYS.into_iter().zip(met).filter(|(_, met)| *met);
    met.map(|(way, _)| (by, way)).collect()
}

#[cfg(test)]
mod tests {
    use super::*;
    use crate::{driver::Tally, orders, random::Random};
    use player::order;

    /// Only the toolbar's elements can start below 0, as it takes to differ
    /// from the f64 sum.
    #[test]
    fn orders_have_such_edges() {
        const ORDERS: u64 = 10_000;
        let r = &mut Random::new(1);
        let mut tally = Tally::new();
        for _ in 0..ORDERS {
            let order = orders::edges(r);
            let settings = order::read(&order.bytes).expect("a sound order");
            for class in of_layout(&settings.layout()) {
                *tally.entry(class).or_default() += 1;
            }
        }
        let often = tally.values().filter(|count| **count > ORDERS / 50);
        assert_eq!(often.count(), 2 * WAYS.len() - 1, "{tally:?}");
    }

    #[test]
    fn ways_by_hand() {
        let met = |x, w| {
            of_edge(x, w)
                .iter()
                .map(|class| class.1)
                .collect::<Vec<_>>()
        };
        let [at, below_0, no_f32, next_to, size, f32_sum, f64_sum] = WAYS;
        assert_eq!(met(1., 2.), [""; 0]);
        assert_eq!(met(1., 2.25), [at]);
        assert_eq!(met(-3., 0.75), [at, below_0]);
        assert_eq!(met(0.04, 0.04), [size]);
        let little = f32::from_bits(1);
        assert_eq!(met(little, 2.25), [no_f32, next_to]);
        let all_but_at = [no_f32, next_to, size, f32_sum, f64_sum];
        assert_eq!(met(-little, 2.25), all_but_at);
        assert_eq!(met(-(2f32.powi(-30)), 2.25), [no_f32, size, f32_sum]);
    }
}
