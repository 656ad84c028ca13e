//! The tracker of fingers by the sentences of document 02's W-203.
use player::{
    order::{field, number_bytes},
    tracker::{Act, Call, Fingers, NO_SUCH_FINGER, WRONG_STATE, call, order_call},
};
use std::cell::Cell;

/// A touch whose mask tells the point and the previous mask.
fn told([x, _]: [f32; 2], previous: u16) -> u16 {
    x as u16 * 256 + previous % 256 + 1
}

/// Calls one after the other, each at its x.
fn play(fingers: &mut Fingers, calls: &[(Act, u8, f32)]) -> Vec<Result<[u16; 2], i32>> {
    let made = calls.iter().map(|&(act, finger, x)| (act, finger, [x, 0.]));
    made.map(|c| call(fingers, c, told)).collect()
}

/// "A press starts from previous mask 0; a move takes that finger's own last
/// mask as previous."
#[test]
fn previous_masks() {
    let mut fingers = Fingers::default();
    // What is left of a finger that is not held is no previous mask.
    fingers[4] = [0, 77];
    let masks = play(
        &mut fingers,
        &[
            (Act::Press, 4, 1.),
            (Act::Press, 5, 2.),
            (Act::Move, 4, 3.),
            (Act::Move, 5, 4.),
        ],
    );
    let own = masks.iter().map(|m| m.unwrap()[0]).collect::<Vec<_>>();
    assert_eq!(own, [0x101, 0x201, 0x302, 0x402]);
    assert_eq!(fingers[4], [1, 0x302]);
}

/// "The combined mask has a bit set exactly if some held finger has it."
#[test]
fn combined_masks() {
    let mut fingers = Fingers::default();
    for (i, finger) in fingers.iter_mut().enumerate() {
        *finger = [i as u16 % 3, 1 << i];
    }
    let at = |fingers: &mut Fingers, made: Call| call(fingers, made, |_, _| 1 << 15).unwrap();
    // Fingers 0, 3, 6 and 9 are not held; the one that is pressed is.
    let held = 0b01_1011_0110;
    assert_eq!(
        at(&mut fingers, (Act::Press, 9, [0.; 2])),
        [1 << 15, held | 1 << 15]
    );
    let held = (held & !2) | 1 << 15;
    assert_eq!(at(&mut fingers, (Act::Lift, 1, [0.; 2])), [0, held]);
    assert_eq!(fingers[1], [0, 0]);
    assert_eq!(fingers[3], [0, 1 << 3]);
}

/// "It refuses with 9 a finger above 9, then with 10 a press of a held finger or
/// a move or lift of one not held, and the tracker then keeps its state."
#[test]
fn refusals() {
    let mut fingers = Fingers::default();
    fingers[2] = [256, 5];
    let before = fingers;
    for finger in 0..=255 {
        let wrong = match finger {
            10.. => [Err(NO_SUCH_FINGER); 3].to_vec(),
            2 => vec![Err(WRONG_STATE)],
            _ => [Err(WRONG_STATE); 2].to_vec(),
        };
        let calls = [Act::Press, Act::Move, Act::Lift].map(|act| (act, finger, 1.));
        let calls = match finger {
            10.. => &calls[..],
            2 => &calls[..1],
            _ => &calls[1..],
        };
        assert_eq!(play(&mut fingers, calls), wrong, "{finger}");
        assert_eq!(fingers, before);
    }
}

/// A refused call asks for no touch, and a lift none either.
#[test]
fn touches_are_asked_where_they_count() {
    let asked = Cell::new(0);
    let touch = |_, _| {
        asked.set(asked.get() + 1);
        7
    };
    let mut fingers = Fingers::default();
    for (act, touches) in [
        (Act::Move, 0),
        (Act::Press, 1),
        (Act::Press, 1),
        (Act::Move, 2),
        (Act::Lift, 2),
        (Act::Lift, 2),
    ] {
        let _ = call(&mut fingers, (act, 0, [0.; 2]), touch);
        assert_eq!(asked.get(), touches, "{act:?}");
    }
}

/// "No other finger's call alters a finger's mask; from a fresh tracker it
/// depends only on its own calls".
#[test]
fn fingers_are_apart() {
    let all = [
        (Act::Press, 1, 1.),
        (Act::Press, 2, 2.),
        (Act::Move, 2, 3.),
        (Act::Press, 1, 4.),
        (Act::Move, 1, 5.),
        (Act::Lift, 2, 0.),
        (Act::Move, 1, 6.),
        (Act::Move, 2, 7.),
    ];
    let first = |m: Result<[u16; 2], i32>| m.map(|masks| masks[0]);
    for finger in [1, 2] {
        let own: Vec<_> = all.into_iter().filter(|c| c.1 == finger).collect();
        let (mut together, mut alone) = (Fingers::default(), Fingers::default());
        let masks = all.into_iter().zip(play(&mut together, &all));
        let masks = masks.filter(|(c, _)| c.1 == finger).map(|(_, m)| first(m));
        let lonely = play(&mut alone, &own).into_iter().map(first);
        assert!(masks.eq(lonely));
        assert_eq!(together[usize::from(finger)], alone[usize::from(finger)]);
    }
}

/// "each over an accepted layout"
#[test]
fn orders_come_first() {
    let mut fingers = Fingers::default();
    for act in [Act::Press, Act::Move, Act::Lift] {
        assert_eq!(order_call(&mut fingers, &[], (act, 10, [0.; 2])), Err(4));
    }
    let order = field(1, &number_bytes([1000., 1000.]));
    let press = (Act::Press, 0, [152., 910.]);
    assert_eq!(order_call(&mut fingers, &order, press), Ok([0x80; 2]));
    assert_eq!(order_call(&mut fingers, &order, press), Err(WRONG_STATE));
    assert_eq!(fingers[0], [1, 0x80]);
}
