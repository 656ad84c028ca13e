use std::{error, fmt};

/// Why an order, settings or a call is refused. The first fault decides.
#[derive(Clone, Copy, Debug, PartialEq, Eq, Hash)]
#[repr(u8)]
pub enum Refusal {
    /// A header or value runs past the end.
    CutOff = 1,
    /// A tag that is not 1 to 7, or not above the one before.
    OutOfTurn = 2,
    /// A field of another length than it must have.
    BadLength = 3,
    /// The order ends without a screen.
    NoScreen = 4,
    /// A reserved bit is set, or the fit is above 2.
    OddMark = 5,
    /// A number is outside its limits.
    OffTheScale = 6,
    /// Over 16 cutouts or 32 saved rectangles.
    Overfull = 7,
    /// The output is shorter than what is written.
    SheetTooSmall = 8,
    /// A finger above 9.
    NoSuchFinger = 9,
    /// A press of a held finger, or a move or lift of one that is not held.
    WrongState = 10,
}

impl Refusal {
    /// All refusals, in the order of their numbers.
    pub const ALL: [Refusal; 10] = [
        Refusal::CutOff,
        Refusal::OutOfTurn,
        Refusal::BadLength,
        Refusal::NoScreen,
        Refusal::OddMark,
        Refusal::OffTheScale,
        Refusal::Overfull,
        Refusal::SheetTooSmall,
        Refusal::NoSuchFinger,
        Refusal::WrongState,
    ];

    /// 1 to 10.
    pub fn number(self) -> u8 {
        self as u8
    }

    pub fn word(self) -> &'static str {
        match self {
            Refusal::CutOff => "cut off",
            Refusal::OutOfTurn => "out of turn",
            Refusal::BadLength => "bad length",
            Refusal::NoScreen => "no screen",
            Refusal::OddMark => "odd mark",
            Refusal::OffTheScale => "off the scale",
            Refusal::Overfull => "overfull",
            Refusal::SheetTooSmall => "sheet too small",
            Refusal::NoSuchFinger => "no such finger",
            Refusal::WrongState => "wrong state",
        }
    }
}

impl fmt::Display for Refusal {
    fn fmt(&self, f: &mut fmt::Formatter) -> fmt::Result {
        write!(f, "refusal {}: {}", self.number(), self.word())
    }
}

impl error::Error for Refusal {}
