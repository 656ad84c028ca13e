//! The bits of a button mask, by the names of the film sheet. A psp has none
//! above [`R1`], only analog has [`L3`] and [`R3`].

pub const X: u16 = 1 << 0;
pub const SQ: u16 = 1 << 1;
pub const SELECT: u16 = 1 << 2;
pub const START: u16 = 1 << 3;
pub const DPAD_UP: u16 = 1 << 4;
pub const DPAD_DOWN: u16 = 1 << 5;
pub const DPAD_LEFT: u16 = 1 << 6;
pub const DPAD_RIGHT: u16 = 1 << 7;
pub const O: u16 = 1 << 8;
pub const TRI: u16 = 1 << 9;
pub const L1: u16 = 1 << 10;
pub const R1: u16 = 1 << 11;
pub const L2: u16 = 1 << 12;
pub const R2: u16 = 1 << 13;
pub const L3: u16 = 1 << 14;
pub const R3: u16 = 1 << 15;

/// The name of a control by its bit; none for the d-pad's, and for more bits
/// than one.
pub fn name(bit: u16) -> Option<&'static str> {
    Some(match bit {
        X => "X",
        SQ => "SQ",
        SELECT => "SELECT",
        START => "START",
        O => "O",
        TRI => "TRI",
        L1 => "L1",
        R1 => "R1",
        L2 => "L2",
        R2 => "R2",
        L3 => "L3",
        R3 => "R3",
        _ => return None,
    })
}
