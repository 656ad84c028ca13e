//! What document 01 says of the unchanged Rust, where the lists of crates/replay
//! and crates/corner_cases have no case of it.
use player::access::{self, LayoutData, picture};
use player::{PictureFit, PlayerViewport, Preset, Rect};

fn rect(x: f32, y: f32, w: f32, h: f32) -> Rect {
    Rect::new(x, y, w, h)
}

#[test]
fn saved_rectangles_that_are_not_finite_are_passed_over() {
    let saved = |saved: &[Rect]| {
        let preset = Preset {
            elements: saved.to_vec(),
            ..Preset::default()
        };
        access::layout_with_cutouts(&preset, 1000., 1000., &[]).elements()
    };
    let passed_over = saved(&[rect(f32::NAN, 0., 0., 0.)]);
    for bad in [f32::NAN, f32::INFINITY, f32::NEG_INFINITY] {
        for first in [
            [bad, 0.2, 0.3, 0.4],
            [0.1, bad, 0.3, 0.4],
            [0.1, 0.2, bad, 0.4],
            [0.1, 0.2, 0.3, bad],
        ] {
            let [x, y, w, h] = first;
            let layout = saved(&[rect(x, y, w, h), rect(0.1, 0.2, 0.3, 0.4)]);
            assert_eq!(layout[0], passed_over[0]);
            assert_eq!(layout[1], rect(100., 200., 300., 400.));
            assert_eq!(layout[2..], passed_over[2..]);
        }
    }
}

#[test]
fn layout_in_raises_the_screen_to_one() {
    let area = rect(0., 0., 1., 1.);
    let layout = |w, h| access::layout_in(&Preset::default(), w, h, &[], area);
    assert_eq!(layout(0., 0.), layout(1., 1.));
    assert_eq!(layout(-5., 700.), layout(1., 700.));
}

/// The three arrangements that `controls` tries, in order.
fn arrangements(w: f32, h: f32, game: Rect) -> [Option<LayoutData>; 3] {
    let bottom = (game.y + game.h).clamp(0., h);
    let right = (game.x + game.w).clamp(0., w);
    let halves = [0., w / 2.].map(|x| rect(x, bottom, w / 2., h - bottom));
    [
        picture::horizontal(w, h, rect(0., bottom, w, h - bottom), false, false),
        picture::vertical(w, h, halves[0], halves[1], false, false),
        picture::vertical(
            w,
            h,
            rect(0., 0., game.x.clamp(0., w), h),
            rect(right, 0., w - right, h),
            false,
            false,
        ),
    ]
}

#[test]
fn controls_takes_the_first_arrangement_that_fits() {
    let cases = [
        // Room below in a wide screen, in a narrow one, and only beside.
        (1000., 1000., rect(0., 18., 1000., 750.), Some(0)),
        (360., 800., rect(0., 18., 360., 270.), Some(1)),
        (1600., 800., rect(279., 18., 1042., 782.), Some(2)),
        (500., 500., rect(0., 18., 500., 375.), None),
    ];
    for (w, h, game, first) in cases {
        let candidates = arrangements(w, h, game);
        let fits = |l: &Option<LayoutData>| {
            l.as_ref()
                .is_some_and(|l| picture::fits(l, w, h, game, &[]))
        };
        assert_eq!(candidates.iter().position(fits), first, "{w} by {h}");
        let taken = first.and_then(|i| candidates[i].clone());
        assert_eq!(picture::controls(w, h, game, false, false, &[]), taken);
    }
    // The first two both fit here: the earlier is taken.
    let game = rect(0., 18., 600., 450.);
    let both = arrangements(600., 1000., game)
        .map(|l| l.is_some_and(|l| picture::fits(&l, 600., 1000., game, &[])));
    assert_eq!(both[..2], [true, true]);
    assert_eq!(
        picture::controls(600., 1000., game, false, false, &[]),
        arrangements(600., 1000., game)[0]
    );
}

#[test]
fn fits_looks_at_sticks() {
    let game = rect(500., 500., 100., 100.);
    let mut layout = LayoutData {
        game: Rect::default(),
        dpad: rect(0., 0., 100., 100.),
        controls: Vec::new(),
        pause: Rect::default(),
        playback: Rect::default(),
        speed: Rect::default(),
        mute: Rect::default(),
        sticks: Vec::new(),
    };
    let fits = |layout: &LayoutData| picture::fits(layout, 1000., 1000., game, &[]);
    assert!(fits(&layout));
    layout.sticks = vec![game];
    assert!(!fits(&layout));
}

#[test]
fn an_unset_fit_follows_the_picture() {
    let fit = |game_scale, game_offset| {
        access::picture_fit(&Preset {
            picture_fit: None,
            game_scale,
            game_offset,
            ..Preset::default()
        })
    };
    assert_eq!(fit(1., [0.5; 2]), PictureFit::Maximum);
    assert_eq!(fit(0.5, [0.5; 2]), PictureFit::KeepClear);
    assert_eq!(fit(1., [0.5, 0.]), PictureFit::KeepClear);
}

/// `capture` and `PlayerViewport::layout` have no worked example: captured
/// rectangles give the layout again, and tops of zero change nothing.
#[test]
fn capture_and_viewport() {
    let preset = Preset::default();
    let layout = access::layout_with_cutouts(&preset, 1024., 1024., &[]);
    let viewport = PlayerViewport {
        controls: [1024.; 2],
        picture: rect(0., 0., 1024., 1024.),
        reusable_top: 0.,
        covered_top: 0.,
    };
    assert_eq!(access::viewport_layout(viewport, &preset, &[]), layout);
    let preset = access::capture(&preset, &layout, 1024., 1024.);
    assert_eq!(
        access::layout_with_cutouts(&preset, 1024., 1024., &[]).dpad,
        layout.dpad
    );
}
