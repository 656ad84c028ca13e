//! The functions that hosts call, against the Rust under document 01's rules.
use crate::{
    driver::{Class, Comparison, compare, compare_classes},
    generate::{self, any_number, integers, number, tie_below},
    lent::rect,
    masks,
    nearest::nearest_hypot,
    orders::{self, Order, fit_word},
    random::Random,
};
use ours::host;
use player::{
    access,
    order::{self, Answer, Settings, field, lent, number_bytes, on_the_scale},
    sheet,
};

pub fn comparisons() -> Vec<Comparison> {
    let layout = compare_classes(
        "order_layout",
        |r| {
            let order = orders::order(r);
            let length = lent_length(r, &order);
            (order, length, r.bits() as u8)
        },
        |(order, length, fill)| lent(*length, *fill, |out| host::layout(&order.bytes, out)),
        |(order, length, fill)| lent(*length, *fill, |out| order::layout(&order.bytes, out)),
        |(order, length, _), (answer, _)| {
            let read = order::read(&order.bytes);
            layout_classes(order, &read, *length, *answer)
        },
    );
    let film = compare_classes(
        "order_film",
        orders::order,
        |order| host::film_sheet(&order.bytes),
        |order| sheet::film_sheet(&order.bytes),
        |order, (text, _)| {
            let refused = text.starts_with(b"REFUSED");
            vec![
                made(order),
                ("sheet", if refused { "REFUSED" } else { "FILM" }),
            ]
        },
    );
    let viewport = compare_classes(
        "order_viewport",
        |r| {
            let order = mostly_sound(r);
            let length = lent_length(r, &order);
            (order, tops(r), length, r.bits() as u8)
        },
        |(order, tops, length, fill)| {
            let call = |out: &mut [u8]| host::viewport_layout(&order.bytes, *tops, out);
            lent(*length, *fill, call)
        },
        |(order, tops, length, fill)| {
            let call = |out: &mut [u8]| order::viewport_layout(&order.bytes, *tops, out);
            lent(*length, *fill, call)
        },
        |(order, tops, length, _), (answer, _)| {
            let covered = if tops[1] > 0. { "above 0" } else { "none" };
            let read = order::read(&order.bytes);
            let mut classes = layout_classes(order, &read, *length, *answer);
            classes.push(("covered top", covered));
            classes
        },
    );
    [layout, film, viewport]
        .into_iter()
        .chain(touches())
        .chain(edges())
        .collect()
}

fn touches() -> impl Iterator<Item = Comparison> {
    let kinds = [
        (
            "order_touch",
            "order_touch ours",
            "order_touch copy",
            touch as fn(&mut Random) -> Touch,
        ),
        (
            "order_touch tie",
            "order_touch ours, tie",
            "order_touch copy, tie",
            tie,
        ),
    ];
    kinds
        .into_iter()
        .flat_map(|(platform, nearest, copy, touch)| {
            let ours = |(order, at, previous): &Touch| host::touch(&order.bytes, *at, *previous);
            let theirs = |(order, at, previous): &Touch| order::touch(&order.bytes, *at, *previous);
            let copied = |hypot| {
                move |(order, at, previous): &Touch| {
                    let layout = order::read(&order.bytes)?.layout().into();
                    Ok(masks::mask_near(&layout, *at, *previous, hypot))
                }
            };
            [
                // The platform's hypot is not the nearest.
                compare(platform, touch, ours, theirs).may_differ(),
                compare_classes(nearest, touch, ours, copied(nearest_hypot), touch_classes),
                compare(copy, touch, copied(f32::hypot), theirs),
            ]
        })
}

fn edges() -> [Comparison; 2] {
    [
        compare(
            "safe_content",
            |r| {
                let size = integers::<2>(r);
                let inset_size = if r.below(8) == 0 { integers(r) } else { size };
                (size, inset_size, integers::<4>(r))
            },
            |&([w, h], [inset_w, inset_h], [left, top, right, bottom])| {
                let numbers = [w, h, inset_w, inset_h, left, top, right, bottom];
                host::safe_content(&numbers).map(rect)
            },
            |&(size, inset_size, edges)| {
                on_the_scale(&[&size[..], &inset_size, &edges].concat())?;
                Ok(access::safe_content(size, inset_size, edges))
            },
        ),
        compare(
            "safe_edges",
            |r| ([0; 3].map(|_| integers::<4>(r)), r.yes()),
            |(edges, local)| {
                let [[a, b, c, d], [e, f, g, h], [i, j, k, l]] = *edges;
                host::safe_edges(&[a, b, c, d, e, f, g, h, i, j, k, l], *local)
            },
            |&([decoration, navigation, camera], local)| {
                on_the_scale(&[decoration, navigation, camera].concat())?;
                Ok(access::safe_edges(decoration, navigation, camera, local))
            },
        ),
    ]
}

/// Just enough bytes or more, or seldom too few.
pub fn lent_length(r: &mut Random, order: &Order) -> usize {
    let exact = order.length;
    let more = exact + r.below(100) as usize;
    let fewer = r.below(exact as u64) as usize;
    let few = r.pick(&[exact - 1, exact - 1, fewer, 0]);
    r.pick(&[exact, exact, more, 1024, few])
}

fn mostly_sound(r: &mut Random) -> Order {
    if r.below(8) == 0 {
        orders::damaged(r)
    } else {
        orders::sound(r)
    }
}

/// The reusable and the covered top: usual ones, any in the limits, the limits
/// themselves, and some outside.
pub fn tops(r: &mut Random) -> [f32; 2] {
    let least = -f32::from_bits(1);
    let limits = [
        8192.,
        8192f32.next_up(),
        -8192.,
        -8192f32.next_up(),
        -0.,
        least,
        -1.,
    ];
    let any = |r: &mut Random| match r.below(32) {
        0 => r.pick(&limits),
        1 => any_number(r),
        2..10 => number(r),
        _ => r.pick(&[0., 24., 24.5, 48., 80.]),
    };
    let [reusable, covered] = [any(r), any(r)];
    // Mostly at least 0, as it must be.
    let reusable = if r.below(8) == 0 {
        reusable
    } else {
        reusable.abs()
    };
    [reusable, covered]
}

/// An order, a point, the previous mask.
pub type Touch = (Order, [f32; 2], u16);

fn touch(r: &mut Random) -> Touch {
    let order = mostly_sound(r);
    let at = match order::read(&order.bytes) {
        Ok(settings) => generate::touch(r, &settings.layout().into()),
        Err(_) => [any_number(r), any_number(r)],
    };
    (order, at, r.bits() as u16)
}

/// A touch at a tie of hypot. A screen of 8,192 by 1 gives the d-pad just as it
/// is saved; so low, it has points of the finest heights.
pub fn tie(r: &mut Random) -> Touch {
    let w = r.between(500., 8192.);
    let x = w / 2. - w * 0.09;
    let x = r.pick(&[x, x.next_up()]);
    let order = Order {
        bytes: [
            field(1, &number_bytes([8192., 1.])),
            field(4, &[2]),
            field(7, &number_bytes([0., 0., w / 8192., 1.])),
        ]
        .concat(),
        kind: "tie",
        damage: "none",
        length: 285,
    };
    (order, [x, 0.5 + tie_below(w, x)], 0)
}

/// The words of document 01, by their numbers.
const REFUSALS: [&str; 9] = [
    "0 no refusal",
    "1 cut off",
    "2 out of turn",
    "3 bad length",
    "4 no screen",
    "5 odd mark",
    "6 off the scale",
    "7 overfull",
    "8 sheet too small",
];

pub fn made(order: &Order) -> Class {
    match order.damage {
        "none" => ("kind", order.kind),
        damage => ("damage", damage),
    }
}

pub fn layout_classes(
    order: &Order,
    read: &Answer<Settings>,
    lent: usize,
    answer: Answer<usize>,
) -> Vec<Class> {
    let mut classes = vec![made(order)];
    classes.push((
        "answer",
        match answer {
            Ok(265) => "265 bytes",
            Ok(285) => "285 bytes",
            Ok(353) => "353 bytes",
            Ok(_) => "other bytes",
            Err(refusal) => REFUSALS[refusal as usize],
        },
    ));
    let (Ok(length), Ok(settings)) = (answer, read) else {
        return classes;
    };
    let spare = if lent > length {
        "spare bytes"
    } else {
        "exact"
    };
    let many = |count, most, all| match count {
        0 => "none",
        _ if count < most => "some",
        _ => all,
    };
    let saved = &settings.preset.elements;
    let numbers = saved.iter().flat_map(|r| [r.x, r.y, r.w, r.h]);
    classes.extend([
        ("accepted, lent", spare),
        ("accepted, fit", fit_word(settings.preset.picture_fit)),
        (
            "accepted, picture",
            settings.picture.map_or("absent", |_| "given"),
        ),
        ("accepted, cutouts", many(settings.cutouts.len(), 16, "16")),
        ("accepted, saved", many(saved.len(), 32, "32")),
    ]);
    if settings.cutouts.iter().any(|c| c.w <= 0. || c.h <= 0.) {
        classes.push(("accepted, cutouts", "of no or negative size"));
    }
    if settings.preset.allow_overlap {
        classes.push(("accepted, overlap", "allowed"));
    }
    if numbers.clone().any(f32::is_nan) {
        classes.push(("accepted, saved", "with NaN"));
    }
    if numbers.clone().any(f32::is_infinite) {
        classes.push(("accepted, saved", "with infinities"));
    }
    classes
}

fn touch_classes((order, ..): &Touch, answer: &Answer<u16>) -> Vec<Class> {
    vec![made(order), ("answer", touched(*answer))]
}

pub fn touched(answer: Answer<u16>) -> &'static str {
    match answer {
        Ok(mask) => masks::pressed(mask),
        Err(refusal) => REFUSALS[refusal as usize],
    }
}

#[cfg(test)]
mod tests {
    use super::*;

    /// The touch of docs/DIFFERENCES.md, which the platform's hypot puts into
    /// the neutral centre of the d-pad.
    #[test]
    fn a_tie_of_hypot() {
        let numbers = |bits: &[u32]| number_bytes(bits.iter().map(|n| f32::from_bits(*n)));
        let order = [
            field(1, &numbers(&[0x4600_0000, 0x4480_0000])),
            field(4, &[2]),
            field(7, &numbers(&[0, 0, 0x3EB7_2D88, 0x3CC0_0000])),
        ]
        .concat();
        let at = [0x44D8_265E, 0x4141_6F7F].map(f32::from_bits);
        let settings = order::read(&order);
        let nearest = settings.map(|s| masks::mask_near(&s.layout().into(), at, 0, nearest_hypot));
        assert_eq!(nearest, Ok(0x80));
        assert_eq!(host::touch(&order, at, 0), nearest);
    }

    /// Every beginning of an order with all fields, as full as they can be.
    #[test]
    fn an_order_cut_off_at_each_place() {
        let number = 100f32.to_be_bytes();
        let order = [
            field(1, &number.repeat(2)),
            field(2, &number.repeat(4)),
            field(3, &[2]),
            field(4, &[2]),
            field(5, &number.repeat(3)),
            field(6, &number.repeat(4 * 16)),
            field(7, &number.repeat(4 * 32)),
        ]
        .concat();
        let mut accepted = 0;
        for length in 0..=order.len() {
            let cut = &order[..length];
            let ours = lent(353, 0, |out| host::layout(cut, out));
            let theirs = lent(353, 0, |out| order::layout(cut, out));
            assert_eq!(ours, theirs, "{length}");
            accepted += u32::from(ours.0.is_ok());
        }
        assert_eq!(accepted, 7);
    }
}
