//! Document 01's cases, and what a wrapper could get wrong: lengths, signs,
//! outputs.
use std::thread;
use thumb_layout::{
    Finger, Fit, LAYOUT_MOST, Layout, Masks, ORDER_MOST, Rect, Refusal, Settings, Tracker, button,
    film, layout, safe_content, safe_edges, touch, viewport_layout,
};

/// A field of an order.
fn field(tag: u8, value: &[u8]) -> Vec<u8> {
    let length = u16::try_from(value.len()).unwrap();
    [&[tag], &length.to_be_bytes()[..], value].concat()
}

fn numbers(values: &[f32]) -> Vec<u8> {
    values.iter().flat_map(|v| v.to_be_bytes()).collect()
}

/// A screen of 1,000 by 1,000, and other fields.
fn order(fields: &[Vec<u8>]) -> Vec<u8> {
    [field(1, &numbers(&[1000., 1000.])), fields.concat()].concat()
}

fn rect(x: f32, y: f32, w: f32, h: f32) -> Rect {
    Rect { x, y, w, h }
}

#[test]
fn lengths_and_outputs() {
    for (mode, length) in [(0, 285), (2, 353), (1, 265), (3, 265)] {
        let order = order(&[field(3, &[mode])]);
        let mut out = [0xAA; 400];
        assert_eq!(layout(&order, &mut out), Ok(length));
        assert!(out[length..].iter().all(|&b| b == 0xAA));
        let mut exact = vec![0; length];
        assert_eq!(layout(&order, &mut exact), Ok(length));
        assert_eq!(exact, out[..length]);
        assert_eq!(viewport_layout(&order, 0., 0., &mut exact), Ok(length));
        let mut small = vec![0xAA; length - 1];
        assert_eq!(layout(&order, &mut small), Err(Refusal::SheetTooSmall));
        assert_eq!(
            viewport_layout(&order, 0., 0., &mut small),
            Err(Refusal::SheetTooSmall)
        );
        assert!(small.iter().all(|&b| b == 0xAA));
    }
}

#[test]
fn every_refusal() {
    let cutouts = vec![0; 16 * 17];
    let faults = [
        (vec![1, 0], Refusal::CutOff),
        (vec![8, 0, 0], Refusal::OutOfTurn),
        (field(1, &[0; 7]), Refusal::BadLength),
        (vec![], Refusal::NoScreen),
        (order(&[field(3, &[8])]), Refusal::OddMark),
        (field(1, &numbers(&[8192.001, 1.])), Refusal::OffTheScale),
        (order(&[field(6, &cutouts)]), Refusal::Overfull),
    ];
    for (order, refusal) in faults {
        let mut out = [0xAA; LAYOUT_MOST];
        assert_eq!(layout(&order, &mut out), Err(refusal));
        assert_eq!(viewport_layout(&order, 0., 0., &mut out), Err(refusal));
        assert_eq!(touch(&order, 0., 0., 0), Err(refusal));
        assert_eq!(Layout::of_order(&order), Err(refusal));
        assert_eq!(Layout::of_viewport(&order, 0., 0.), Err(refusal));
        assert_eq!(film(&order), format!("REFUSED {}\n", refusal.number()));
        assert_eq!(out, [0xAA; LAYOUT_MOST]);
        let mut tracker = held(0xAAAA);
        // Before those of fingers.
        assert_eq!(tracker.press(&order, 10, 0., 0.), Err(refusal));
        assert_eq!(tracker.move_to(&order, 10, 0., 0.), Err(refusal));
        assert_eq!(tracker.lift(&order, 10), Err(refusal));
        assert_eq!(tracker, held(0xAAAA));
    }
    let texts: Vec<String> = Refusal::ALL.iter().map(Refusal::to_string).collect();
    assert_eq!(texts[0], "refusal 1: cut off");
    assert_eq!(texts[7], "refusal 8: sheet too small");
    assert_eq!(texts[9], "refusal 10: wrong state");
}

/// Ten fingers with this number in every place.
fn held(number: u16) -> Tracker {
    let finger = Finger {
        held: number,
        mask: number,
    };
    Tracker {
        fingers: [finger; 10],
    }
}

#[test]
fn elements_by_name() {
    let layout = Layout::of_order(&order(&[])).unwrap();
    assert_eq!(layout.game, rect(0., 18., 1000., 750.));
    assert_eq!(layout.dpad, rect(12., 830., 160., 160.));
    assert_eq!(layout.pause, rect(932., 0., 40., 18.));
    assert_eq!(layout.lines().len(), 16);
    assert!(layout.sticks.is_empty());
    let analog = Layout::of_order(&order(&[field(3, &[2])])).unwrap();
    let names: Vec<&str> = analog.lines().iter().map(|line| line.0).collect();
    assert_eq!(names.len(), 20);
    assert_eq!(
        &names[12..],
        [
            "L3", "R3", "PAUSE", "PLAY", "SPEED", "MUTE", "LEFT", "RIGHT"
        ]
    );
    assert!(!names.contains(&"?"));
}

#[test]
fn film_sheets() {
    for mode in 0..4 {
        let order = order(&[field(3, &[mode])]);
        let lines = Layout::of_order(&order).unwrap().lines();
        let tenths = |v: f64| (10. * v + 0.5).floor();
        let mut text = format!("FILM {}\n", lines.len());
        for (name, r) in lines {
            // Their sums are exact.
            let [x, y, w, h] = [r.x, r.y, r.w, r.h].map(f64::from);
            let [left, upper, right, lower] = [x, y, x + w, y + h].map(tenths);
            let [w, h] = [right - left, lower - upper];
            text += &format!("{name} {left} {upper} {w} {h}\n");
        }
        assert_eq!(film(&order), text);
    }
}

#[test]
fn bytes_of_no_layout() {
    let mut out = [0; LAYOUT_MOST];
    let length = layout(&order(&[]), &mut out).unwrap();
    assert!(Layout::from_bytes(&out[..length]).is_some());
    for wrong in [0, 1, 19, length - 1, length + 1] {
        assert_eq!(Layout::from_bytes(&out[..wrong]), None);
    }
    // Further elements are sticks, of which there are two at most.
    let with_sticks = |n: usize| {
        let size = usize::from(u16::from_be_bytes([out[20], out[21]]));
        let mut bytes = out[..length].to_vec();
        bytes[20..22].copy_from_slice(&((size + 16 * n) as u16).to_be_bytes());
        bytes.splice(22 + size..22 + size, vec![0; 16 * n]);
        Layout::from_bytes(&bytes).map(|layout| layout.sticks.len())
    };
    assert_eq!(with_sticks(2), Some(2));
    assert_eq!(with_sticks(3), None);
}

#[test]
fn touches() {
    let order = order(&[]);
    let layout = Layout::of_order(&order).unwrap();
    for (bounds, mask) in layout.controls {
        let (x, y) = (bounds.x + bounds.w / 2., bounds.y + bounds.h / 2.);
        assert_eq!(touch(&order, x, y, 0), Ok(mask));
    }
    let (x, y) = (layout.dpad.x + 80., layout.dpad.y + 80.);
    let sides = [
        (0., -60., button::DPAD_UP),
        (0., 60., button::DPAD_DOWN),
        (-60., 0., button::DPAD_LEFT),
        (60., 0., button::DPAD_RIGHT),
        (60., 60., button::DPAD_RIGHT | button::DPAD_DOWN),
    ];
    for (across, down, mask) in sides {
        assert_eq!(touch(&order, x + across, y + down, 0), Ok(mask));
    }
    assert_eq!(touch(&order, f32::NAN, 0., 0xFFFF), Ok(0));
    assert_eq!(touch(&order, f32::INFINITY, f32::NEG_INFINITY, 0), Ok(0));
}

#[test]
fn fingers() {
    let [order, psp] = [order(&[]), order(&[field(3, &[1])])];
    let mut tracker = Tracker::default();
    assert_eq!(tracker, held(0));
    let masks = |mask, combined| Ok(Masks { mask, combined });
    let [cross, tri, o] = [button::DPAD_RIGHT, button::TRI, button::O];
    assert_eq!(tracker.press(&order, 0, 152., 910.), masks(cross, cross));
    assert_eq!(
        tracker.press(&order, 9, 908., 862.),
        masks(tri, tri | cross)
    );
    // The finger keeps TRI, which is nearly as near as O; a new one gets O.
    assert_eq!(
        tracker.move_to(&order, 9, 934., 888.),
        masks(tri, tri | cross)
    );
    assert_eq!(
        tracker.press(&order, 5, 934., 888.),
        masks(o, o | tri | cross)
    );
    assert_eq!(touch(&order, 934., 888., 0), Ok(o));
    let before = tracker.clone();
    assert_eq!(tracker.press(&order, 5, 0., 0.), Err(Refusal::WrongState));
    assert_eq!(tracker.move_to(&order, 1, 0., 0.), Err(Refusal::WrongState));
    assert_eq!(tracker.lift(&order, 1), Err(Refusal::WrongState));
    for finger in 10..=255 {
        assert_eq!(
            tracker.press(&order, finger, 0., 0.),
            Err(Refusal::NoSuchFinger)
        );
        assert_eq!(
            tracker.move_to(&order, finger, 0., 0.),
            Err(Refusal::NoSuchFinger)
        );
        assert_eq!(tracker.lift(&order, finger), Err(Refusal::NoSuchFinger));
    }
    assert_eq!(tracker, before);
    // Another order: the last mask counts as it is.
    assert_eq!(tracker.move_to(&psp, 0, f32::NAN, 0.), masks(0, o | tri));
    assert_eq!(tracker.lift(&psp, 9), masks(0, o));
    assert_eq!(tracker.lift(&order, 0), masks(0, o));
    assert_eq!(tracker.lift(&order, 5), masks(0, 0));
    assert_eq!(tracker, Tracker::default());
    // Whatever lies in memory is a tracker: any number but 0 is held.
    let mut tracker = held(0x100);
    assert_eq!(tracker.press(&order, 3, 0., 0.), Err(Refusal::WrongState));
    assert_eq!(tracker.lift(&order, 3), masks(0, 0x100));
    tracker.fingers[4].held = 0;
    for finger in [0, 1, 2, 5, 6, 7, 8] {
        tracker.lift(&order, finger).unwrap();
    }
    // Not held, so its mask does not count.
    assert_eq!(tracker.lift(&order, 9), masks(0, 0));
    assert_eq!(tracker.fingers[4].mask, 0x100);
}

#[test]
fn viewports() {
    let order = order(&[]);
    let level = Layout::of_viewport(&order, 0., 0.).unwrap();
    assert_eq!(Layout::of_order(&order).unwrap(), level);
    let mut out = [0; LAYOUT_MOST];
    let length = viewport_layout(&order, 24., 24.5, &mut out).unwrap();
    let lower = Layout::of_viewport(&order, 24., 24.5).unwrap();
    assert_eq!(Layout::from_bytes(&out[..length]), Some(lower.clone()));
    assert_ne!(lower, Layout::of_viewport(&order, 24.5, 24.).unwrap());
}

#[test]
fn tops_come_last() {
    let (good, mut out) = (order(&[]), [0; LAYOUT_MOST]);
    for (reusable, covered) in [(-1., 0.), (0., 8193.), (f32::NAN, 0.), (0., f32::INFINITY)] {
        let answer = viewport_layout(&good, reusable, covered, &mut out);
        assert_eq!(answer, Err(Refusal::OffTheScale));
        let answer = viewport_layout(&[], reusable, covered, &mut out);
        assert_eq!(answer, Err(Refusal::NoScreen));
    }
    assert_eq!(viewport_layout(&good, 8192., -8192., &mut out), Ok(285));
}

/// Settings with a screen of 1,000 by 1,000, changed.
fn settings(change: impl FnOnce(&mut Settings)) -> Settings {
    let mut settings = Settings::new(1000., 1000.);
    change(&mut settings);
    settings
}

/// Every field differs from what its absence means, and the lists are full.
fn full() -> Settings {
    Settings {
        screen: [800., 1280.],
        picture: Some(rect(0., 24., 800., 1256.)),
        psp: false,
        analog: true,
        allow_overlap: true,
        fit: Fit::KeepClear,
        game_scale: 0.75,
        game_offset: [0.5, 0.25],
        cutouts: vec![rect(1., 2., 3., -4.); 16],
        saved: vec![rect(0.5, 0.25, 0.125, 2.); 32],
    }
}

#[test]
fn orders_of_settings() {
    let written = |change: fn(&mut Settings)| settings(change).to_order().unwrap();
    assert_eq!(written(|_| ()), order(&[]));
    // one field each
    assert_eq!(
        written(|s| s.picture = Some(rect(-1., 2., 3., 4.))),
        order(&[field(2, &numbers(&[-1., 2., 3., 4.]))])
    );
    assert_eq!(written(|s| s.psp = true), order(&[field(3, &[1])]));
    assert_eq!(written(|s| s.analog = true), order(&[field(3, &[2])]));
    assert_eq!(
        written(|s| s.allow_overlap = true),
        order(&[field(3, &[4])])
    );
    assert_eq!(written(|s| s.fit = Fit::Unset), order(&[field(4, &[0])]));
    assert_eq!(written(|s| s.fit = Fit::Maximum), order(&[]));
    assert_eq!(
        written(|s| s.fit = Fit::KeepClear),
        order(&[field(4, &[2])])
    );
    assert_eq!(
        written(|s| s.game_scale = 2.),
        order(&[field(5, &numbers(&[2., 0.5, 0.5]))])
    );
    assert_eq!(
        written(|s| s.game_offset = [0.25, 0.75]),
        order(&[field(5, &numbers(&[1., 0.25, 0.75]))])
    );
    assert_eq!(
        written(|s| s.cutouts = vec![rect(1., 2., 3., 4.), rect(5., 6., 7., 8.)]),
        order(&[field(6, &numbers(&[1., 2., 3., 4., 5., 6., 7., 8.]))])
    );
    assert_eq!(
        written(|s| s.saved = vec![rect(1e9, 2., -3., 4.), rect(5., 6., 7., 8.)]),
        order(&[field(7, &numbers(&[1e9, 2., -3., 4., 5., 6., 7., 8.]))])
    );
    // all fields
    let bytes = [
        field(1, &numbers(&[800., 1280.])),
        field(2, &numbers(&[0., 24., 800., 1256.])),
        field(3, &[6]),
        field(4, &[2]),
        field(5, &numbers(&[0.75, 0.5, 0.25])),
        field(6, &numbers(&[1., 2., 3., -4.].repeat(16))),
        field(7, &numbers(&[0.5, 0.25, 0.125, 2.].repeat(32))),
    ];
    assert_eq!(full().to_order(), Ok(bytes.concat()));
    assert_eq!(bytes.concat().len(), ORDER_MOST);
}

#[test]
fn an_absent_picture_is_the_screen() {
    for (w, h) in [(1000., 600.), (0.5, 1.), (0., -0.), (8192., 0.999)] {
        let none = Settings::new(w, h);
        let whole = rect(0., -0., f32::max(w, 1.), f32::max(h, 1.));
        let some = Settings {
            picture: Some(whole),
            ..none.clone()
        };
        assert_eq!(none.to_order(), some.to_order());
        assert_eq!(none.to_order(), Ok(field(1, &numbers(&[w, h.abs()]))));
        let other = Settings {
            picture: Some(rect(0., 0., w, f32::max(h, 1.) + 1.)),
            ..none
        };
        assert_eq!(other.to_order().unwrap().len(), 11 + 19);
    }
    assert_eq!(Settings::default(), Settings::new(0., 0.));
    assert_eq!(
        Settings::default().to_order(),
        Ok(field(1, &numbers(&[0., 0.])))
    );
}

#[test]
fn replaced_numbers() {
    let zeros = Settings {
        screen: [-0., -0.],
        picture: Some(rect(-0., -0., -0., -0.)),
        game_scale: -0.,
        game_offset: [-0., -0.],
        cutouts: vec![rect(-0., -0., -0., -0.)],
        saved: vec![rect(-0., -0., -0., -0.)],
        ..Settings::default()
    };
    let bytes = [
        field(1, &[0; 8]),
        field(2, &[0; 16]),
        field(5, &[0; 12]),
        field(6, &[0; 16]),
        field(7, &[0; 16]),
    ];
    assert_eq!(zeros.to_order(), Ok(bytes.concat()));
    let infinite = [f32::INFINITY, f32::NEG_INFINITY];
    let nans = [0x7FC0_0000, 0xFFFF_ABCD, 0x7F80_0001].map(f32::from_bits);
    for number in infinite.into_iter().chain(nans) {
        for i in 0..4 {
            let mut r = [0.25, -0., f32::MAX, 1e-45];
            r[i] = number;
            let [x, y, w, h] = r;
            let s = settings(|s| s.saved = vec![rect(1., -0., 3., 4.), rect(x, y, w, h)]);
            let value = [numbers(&[1., 0., 3., 4.]), [0x7F, 0xC0, 0, 0].repeat(4)];
            assert_eq!(s.to_order(), Ok(order(&[field(7, &value.concat())])));
        }
    }
}

#[test]
fn refused_settings() {
    let off = Some(Refusal::OffTheScale);
    let overfull = Some(Refusal::Overfull);
    let mends: [(fn(&mut Settings), _); 6] = [
        (|_| (), off),
        (|s| s.screen = [1000., 1000.], off),
        (|s| s.picture = None, off),
        (|s| (s.game_scale, s.game_offset) = (1., [0.5; 2]), overfull),
        (|s| s.cutouts.truncate(16), off),
        (|s| s.cutouts[15].h = 8192., overfull),
    ];
    // every fault, mended one by one in the order of the tags
    let mut faulty = Settings {
        screen: [8193., f32::NAN],
        picture: Some(rect(0., 0., -1., 0.)),
        game_scale: f32::INFINITY,
        game_offset: [-8193., 0.],
        cutouts: vec![rect(0., 0., 0., 8192.001); 17],
        saved: vec![Rect::default(); 33],
        ..full()
    };
    faulty.cutouts[..15].fill(Rect::default());
    for (mend, refusal) in mends {
        mend(&mut faulty);
        for room in [0, 11, ORDER_MOST + 40] {
            let mut out = vec![0xAA; room];
            assert_eq!(faulty.write_order(&mut out).err(), refusal);
            assert!(out.iter().all(|&b| b == 0xAA));
        }
        assert_eq!(faulty.to_order().err(), refusal);
    }
    faulty.saved.truncate(32);
    assert_eq!(faulty.write_order(&mut []), Err(Refusal::SheetTooSmall));
    let length = 11 + 4 + 4 + (3 + 16 * 16) + (3 + 16 * 32);
    assert_eq!(faulty.to_order().map(|order| order.len()), Ok(length));
    // one fault alone
    let faults: [fn(&mut Settings); 8] = [
        |s| s.screen[0] = f32::NAN,
        |s| s.screen[1] = -1e-45,
        |s| s.picture = Some(rect(0., 8192.001, 0., 0.)),
        |s| s.picture = Some(rect(0., 0., -1e-45, 0.)),
        |s| s.game_scale = f32::NAN,
        |s| s.game_offset[0] = f32::NEG_INFINITY,
        |s| s.game_offset[1] = -8192.001,
        |s| s.cutouts = vec![rect(0., f32::NAN, 0., 0.)],
    ];
    for fault in faults {
        assert_eq!(settings(fault).to_order(), Err(Refusal::OffTheScale));
    }
}

#[test]
fn outputs_of_orders() {
    for settings in [Settings::new(1000., 1000.), full()] {
        let order = settings.to_order().unwrap();
        for room in [order.len(), order.len() + 1, ORDER_MOST + 40] {
            let mut out = vec![0xAA; room];
            assert_eq!(settings.write_order(&mut out), Ok(order.len()));
            assert_eq!(out[..order.len()], order);
            assert!(out[order.len()..].iter().all(|&b| b == 0xAA));
        }
        let mut small = vec![0xAA; order.len() - 1];
        let answer = settings.write_order(&mut small);
        assert_eq!(answer, Err(Refusal::SheetTooSmall));
        assert!(small.iter().all(|&b| b == 0xAA));
    }
}

/// The orders that are written are accepted, and mean what was set.
#[test]
fn written_orders_are_read() {
    let layout = |s: Settings| Layout::of_order(&s.to_order().unwrap()).unwrap();
    assert_eq!(layout(full()).sticks.len(), 2);
    let psp = layout(settings(|s| s.psp = true));
    assert_eq!(psp, Layout::of_order(&order(&[field(3, &[1])])).unwrap());
    // An unset fit goes by the size factor.
    let fit = |fit, scale| layout(settings(|s| (s.fit, s.game_scale) = (fit, scale)));
    assert_eq!(fit(Fit::Unset, 1.), fit(Fit::Maximum, 1.));
    assert_eq!(fit(Fit::Unset, 0.75), fit(Fit::KeepClear, 0.75));
    assert_ne!(fit(Fit::Unset, 0.75), fit(Fit::Maximum, 0.75));
    // The two replacements change no layout.
    let (x, y) = ([0.25, f32::NAN, 0.125, 0.125], [-0., 0.5, 0.125, 0.125]);
    let rects = [x, y].map(|[x, y, w, h]| rect(x, y, w, h));
    let saved = layout(settings(|s| s.saved = rects.to_vec()));
    let kept = order(&[field(7, &numbers([x, y].as_flattened()))]);
    assert_eq!(saved, Layout::of_order(&kept).unwrap());
    assert_ne!(saved, layout(settings(|s| s.saved = vec![rects[0]])));
}

#[test]
fn the_safe_area() {
    let edges = [10, 20, 30, 40];
    assert_eq!(
        safe_content([800, 600], [800, 600], edges),
        Ok(rect(10., 20., 760., 540.))
    );
    assert_eq!(
        safe_content([800, 600], [600, 800], edges),
        Ok(rect(0., 0., 800., 600.))
    );
    assert_eq!(
        safe_content([100, 100], [100, 100], [0, 0, 500, 0]),
        Ok(rect(0., 0., 1., 100.))
    );
    assert_eq!(
        safe_content([100, 100], [8193, 100], edges),
        Err(Refusal::OffTheScale)
    );
    let (decoration, navigation, camera) = ([1, 2, 3, 4], [0, 5, 0, 0], [9; 4]);
    assert_eq!(
        safe_edges(decoration, navigation, camera, true),
        Ok([1, 9, 3, 9])
    );
    assert_eq!(
        safe_edges(decoration, navigation, camera, false),
        Ok([9, 9, 9, 9])
    );
    assert_eq!(
        safe_edges(decoration, navigation, [0, 0, 0, -8193], true),
        Err(Refusal::OffTheScale)
    );
}

#[test]
fn threads_are_independent() {
    let alone: Vec<_> = (0..4)
        .map(|mode| Layout::of_order(&order(&[field(3, &[mode])])))
        .collect();
    let threads: Vec<_> = (0..4)
        .map(|mode| {
            thread::spawn(move || {
                let order = order(&[field(3, &[mode])]);
                (0..1000)
                    .map(|_| Layout::of_order(&order))
                    .collect::<Vec<_>>()
            })
        })
        .collect();
    for (thread, alone) in threads.into_iter().zip(alone) {
        assert!(thread.join().unwrap().iter().all(|layout| *layout == alone));
    }
}
