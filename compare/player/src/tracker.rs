//! Ten fingers on one film, written from document 02's W-203 alone. What a
//! touch presses is an argument, since the Rust's `mask_near` has the platform's
//! hypot, which is not the nearest.
use crate::access::native;
use crate::order::{self, Answer};

pub const NO_SUCH_FINGER: i32 = 9;
pub const WRONG_STATE: i32 = 10;

/// A tracker as hosts lend it: of each finger whether it is held (0 is no), and
/// its mask.
pub type Fingers = [[u16; 2]; 10];

/// What a finger does.
#[derive(Clone, Copy, Debug, PartialEq, Eq)]
pub enum Act {
    Press,
    Move,
    Lift,
}

pub const ACTS: [Act; 3] = [Act::Press, Act::Move, Act::Lift];

/// What is done, by which finger, and where; a lift's point is passed over.
pub type Call = (Act, u8, [f32; 2]);

/// The finger's mask and the combined mask. `touch` is the mask of a point and
/// a previous mask on the layout at hand.
pub fn call(
    fingers: &mut Fingers,
    (act, finger, at): Call,
    touch: impl Fn([f32; 2], u16) -> u16,
) -> Answer<[u16; 2]> {
    let [held, last] = fingers.get_mut(usize::from(finger)).ok_or(NO_SUCH_FINGER)?;
    if (act == Act::Press) == (*held != 0) {
        return Err(WRONG_STATE);
    }
    (*held, *last) = match act {
        Act::Press => (1, touch(at, 0)),
        Act::Move => (1, touch(at, *last)),
        Act::Lift => (0, 0),
    };
    let mask = *last;
    let held = fingers.iter().filter(|[held, _]| *held != 0);
    let combined = held.fold(0, |combined, [_, mask]| combined | mask);
    Ok([mask, combined])
}

/// The same on the layout of an order, whose refusals come first.
pub fn order_call(fingers: &mut Fingers, order: &[u8], made: Call) -> Answer<[u16; 2]> {
    let layout = order::read(order)?.layout();
    call(fingers, made, |[x, y], previous| {
        native::mask_near(&layout, x, y, previous)
    })
}
