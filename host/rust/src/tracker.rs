/// A finger of a [`Tracker`], as the library has it. 0 is not held, any other
/// number held.
#[repr(C)]
#[derive(Clone, Copy, Debug, Default, PartialEq, Eq, Hash)]
pub struct Finger {
    pub held: u16,
    pub mask: u16,
}

/// Ten fingers, 0 to 9, on one film; the default is a fresh one, which holds
/// none.
///
/// A finger's masks depend on its own calls alone, and on the orders of these.
/// A refused call changes nothing.
///
/// ```
/// use thumb_layout::{Refusal, Settings, Tracker, button};
///
/// let order = Settings::new(1000., 1000.).to_order()?;
/// let mut tracker = Tracker::default();
/// // One thumb on the cross, the other on a cap.
/// tracker.press(&order, 0, 152., 910.)?;
/// let masks = tracker.press(&order, 1, 908., 862.)?;
/// assert_eq!(masks.mask, button::TRI);
/// assert_eq!(masks.combined, button::TRI | button::DPAD_RIGHT);
/// assert_eq!(tracker.lift(&order, 0)?.combined, button::TRI);
/// assert_eq!(tracker.lift(&order, 0), Err(Refusal::WrongState));
/// # Ok::<(), Refusal>(())
/// ```
#[repr(C)]
#[derive(Clone, Debug, Default, PartialEq, Eq, Hash)]
pub struct Tracker {
    pub fingers: [Finger; 10],
}

/// What an accepted call answers.
#[derive(Clone, Copy, Debug, PartialEq, Eq, Hash)]
pub struct Masks {
    /// The finger's own, 0 after a lift.
    pub mask: u16,
    /// The bits of all held fingers.
    pub combined: u16,
}
