//! The film sheet by document 01's example and the sentences of document 02's
//! W-202.
use player::sheet::{edge, film_sheet};

/// Document 01's, with "the TRI and X lines get w 640, and the O and SQ lines
/// get h 640; the rest keeps".
const SHEET: &str = "\
FILM 16
GAME 0 180 10000 7500
DPAD 120 8300 1600 1600
TRI 8760 8300 640 639
O 9241 8780 639 640
X 8760 9261 640 639
SQ 8280 8780 639 640
L1 240 7780 640 440
L2 960 7780 640 440
R2 8400 7780 640 440
R1 9120 7780 640 440
SELECT 4320 9460 640 440
START 5040 9460 640 440
PAUSE 9320 0 400 180
PLAY 280 0 400 180
SPEED 760 0 560 180
MUTE 8840 0 400 180
";

#[test]
fn the_papers_sheet() {
    let (sheet, length) = film_sheet(&[1, 0, 8, 0x44, 0x7A, 0, 0, 0x44, 0x7A, 0, 0]);
    assert_eq!(std::str::from_utf8(&sheet[..length]), Ok(SHEET));
    assert!(sheet[length..].iter().all(|b| *b == 0));
}

/// Numbers by themselves, as x and y are.
#[test]
fn the_nearest_whole_number_to_ten_times() {
    for (x, want) in [
        (0., 0),
        (-0., 0),
        (0.25, 3),
        (-0.25, -2),
        (0.75, 8),
        (-0.75, -7),
        // The f32 nearest 0.05 is above it, that nearest 0.15 too; 0.35's is below.
        (0.05, 1),
        (-0.05, -1),
        (0.15, 2),
        (0.35, 3),
        (-0.35, -3),
        (1e-30, 0),
        (-1e-30, 0),
        (8192., 81920),
        (-8192., -81920),
        (1e9, 10_000_000_000),
        (2f32.powi(120), 10 << 120),
    ] {
        assert_eq!(edge(x, 0.), want, "{x}");
        assert_eq!(edge(0., x), want, "{x}");
    }
}

#[test]
fn sums_by_hand() {
    for (x, w, want) in [
        (0.125, 0.125, 3),
        (-0.125, -0.125, -2),
        (-0.5, 0.25, -2),
        (876.04, 63.92, 9400),
        (-8192., 8192.25, 3),
        // An f32 has no 16777217.25.
        (16777216., 1.25, 167772173),
        (16777216., -0.75, 167772153),
        (1e30, -1e30, 0),
        (0.0625, 0.1875, 3),
        (2048.0625, 0.1875, 20483),
    ] {
        assert_eq!(edge(x, w), want, "{x} {w}");
        assert_eq!(edge(w, x), want, "{w} {x}");
    }
}

/// A half with something above it and below it that only an exact sum has: the
/// least f32, one that an f64 sum drops, one that an f32 sum drops.
#[test]
fn next_to_halves() {
    for (half, up) in [
        (0.25, 3),
        (-0.25, -2),
        (63.75, 638),
        (-63.75, -637),
        (8191.25, 81913),
        (-22560.75, -225607),
        (524287.75, 5242878),
    ] {
        assert_eq!(edge(half, 0.), up);
        for exponent in [-149, -148, -127, -126, -60, -40, -36, -35, -34, -13] {
            let little = 2f64.powi(exponent) as f32;
            assert!(little > 0.);
            let above = [edge(half, little), edge(little, half)];
            let below = [edge(half, -little), edge(-little, half)];
            assert_eq!((above, below), ([up; 2], [up - 1; 2]), "{half} {little}");
        }
        let [above, below] = [half.next_up(), half.next_down()];
        assert_eq!([edge(above, 0.), edge(below, 0.)], [up, up - 1]);
        // From the next f32 back to the half, and the least too far or too short.
        let way = above - half;
        assert_eq!(edge(above, -way), up);
        assert_eq!(edge(above, -way.next_up()), up - 1);
        assert_eq!(edge(below, (half - below).next_down()), up - 1);
    }
}

/// A sum that an i128 does not hold ten times of is no wrong number.
#[test]
#[should_panic(expected = "below 2^127")]
fn no_number_is_cut_off() {
    edge(f32::MAX, f32::MAX);
}
