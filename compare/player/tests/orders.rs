//! The reader of orders by document 01's worked examples and its order of
//! refusals.
use player::{
    Rect,
    access::{self, LayoutData},
    order::{self, field, number_bytes},
};

fn screen(w: f32, h: f32) -> Vec<u8> {
    field(1, &number_bytes([w, h]))
}

fn refusal(fields: &[&[u8]]) -> i32 {
    order::read(&fields.concat()).err().unwrap_or(0)
}

#[test]
fn worked_examples() {
    let order = screen(1000., 1000.);
    assert_eq!(order, [1, 0, 8, 0x44, 0x7A, 0, 0, 0x44, 0x7A, 0, 0]);
    let (answer, out) = order::lent(285, 9, |out| order::layout(&order, out));
    assert_eq!(answer, Ok(285));
    assert_eq!(out[..3], [1, 0, 16]);
    assert_eq!(out[3..19], number_bytes([0., 18., 1000., 750.]));
    assert_eq!(out[19..22], [2, 0, 240]);
    assert_eq!(out[22..38], number_bytes([12., 830., 160., 160.]));
    // The masks of TRI, O, X and SQ are the first.
    assert_eq!(out[262..273], [3, 0, 20, 2, 0, 1, 0, 0, 1, 0, 2]);
    let small = order::lent(284, 9, |out| order::layout(&order, out));
    assert_eq!(small, (Err(8), vec![9; 284]));
    let (answer, out) = order::lent(300, 9, |out| order::layout(&order, out));
    assert_eq!(answer, Ok(285));
    assert_eq!(out[285..], [9; 15]);

    assert_eq!(refusal(&[]), 4);
    assert_eq!(refusal(&[&screen(8192., 8192.)]), 0);
    assert_eq!(refusal(&[&screen(8192., 8192f32.next_up())]), 6);
    let cutouts = |count: usize| field(6, &vec![0; 16 * count]);
    assert_eq!(refusal(&[&order, &cutouts(16)]), 0);
    assert_eq!(refusal(&[&order, &cutouts(17)]), 7);
}

#[test]
fn the_first_fault_decides() {
    let order = &screen(1000., 1000.)[..];
    let nan = number_bytes([f32::NAN; 4]);
    let saved = |count: usize| field(7, &nan.repeat(count));
    for (fields, number) in [
        // A header is cut off before its tag is looked at.
        (&[order, &[0]][..], 1),
        (&[order, &[0, 0, 0]], 2),
        (&[order, &[8, 255, 255]], 2),
        (&[order, order], 2),
        (&[order, &[2, 0, 17]], 1),
        (&[order, &field(2, &nan[..15])], 3),
        (&[order, &field(6, &nan[..15])], 3),
        (&[order, &field(6, &nan.repeat(17))], 7),
        (&[order, &field(6, &nan)], 6),
        (&[order, &saved(32)], 0),
        (&[order, &saved(33)], 7),
        (&[order, &field(3, &[7])], 0),
        (&[order, &field(3, &[8])], 5),
        (&[order, &field(4, &[2])], 0),
        (&[order, &field(4, &[3])], 5),
        (&[order, &field(4, &[3]), &[9]], 5),
        // The end is looked at last.
        (&[&field(4, &[1])], 4),
        (&[&field(4, &[1]), &[6, 0]], 1),
        (&[&screen(-0., 0.)], 0),
        (&[&screen(-1., 0.)], 6),
        (&[order, &field(2, &number_bytes([-1., -1., 0., -0.]))], 0),
        (&[order, &field(2, &number_bytes([0., 0., 0., -1.]))], 6),
        (&[order, &field(6, &number_bytes([0., 0., -1., -1.]))], 0),
    ] {
        assert_eq!(refusal(fields), number, "{fields:?}");
    }
}

/// A rectangle saved at -0 is there in the layout, and is written at 0.
#[test]
fn negative_zero_is_written_as_plus_zero() {
    let saved = field(7, &number_bytes([-0., -0., 0.2, 0.2]));
    let order = [screen(1000., 1000.), saved].concat();
    let Ok(settings) = order::read(&order) else {
        panic!("a sound order");
    };
    let layout = settings.layout();
    let corner = [layout.dpad.x, layout.dpad.y];
    assert_eq!(corner.map(f32::to_bits), [0x8000_0000; 2]);
    let written = order::written(&layout);
    assert_eq!(written[22..38], number_bytes([0., 0., 200., 200.]));
}

/// The tops come after the whole order and before the lent length.
#[test]
fn tops_come_last() {
    let answer = |order: &[u8], tops| order::viewport_layout(order, tops, &mut []);
    let order = &screen(1000., 1000.)[..];
    assert_eq!(answer(order, [0., 0.]), Err(8));
    assert_eq!(answer(order, [-0., -8192.]), Err(8));
    assert_eq!(answer(order, [-1., 0.]), Err(6));
    assert_eq!(answer(order, [0., f32::NAN]), Err(6));
    assert_eq!(answer(&[], [-1., 0.]), Err(4));
}

/// Without tag 2 the picture is the screen, raised to 1.
#[test]
fn parts_of_an_order() {
    let bytes = [
        screen(0., 600.),
        field(3, &[6]),
        field(4, &[0]),
        field(5, &number_bytes([0.5, 0.25, 1.])),
        field(6, &number_bytes([1., 2., -3., 0.])),
        field(7, &number_bytes([0.1, 0.2, 0.3, 0.4])),
    ]
    .concat();
    let Ok(settings) = order::read(&bytes) else {
        panic!("a sound order");
    };
    let preset = &settings.preset;
    assert_eq!(settings.screen, [0., 600.]);
    assert_eq!(
        [preset.psp, preset.analog, preset.allow_overlap],
        [false, true, true]
    );
    assert!(preset.picture_fit.is_none());
    assert_eq!((preset.game_scale, preset.game_offset), (0.5, [0.25, 1.]));
    assert_eq!(settings.cutouts, [Rect::new(1., 2., -3., 0.)]);
    assert_eq!(preset.elements, [Rect::new(0.1, 0.2, 0.3, 0.4)]);
    let whole = Rect::new(0., 0., 1., 600.);
    let cutouts = &settings.cutouts;
    let layout = access::layout_in(preset, 0., 600., cutouts, whole);
    assert_eq!(LayoutData::from(settings.layout()), layout);
}
