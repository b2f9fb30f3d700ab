//! The refusals of paper 01: a number and a place.

use std::fmt;

/// Why something was turned down. The discriminants are the paper's numbers;
/// the paper has no number 6.
#[derive(Clone, Copy, Debug, PartialEq, Eq)]
#[repr(u8)]
pub enum Reason {
    NotSixteenBytes = 1,
    UnknownMark = 2,
    ZeroByteNotZero = 3,
    OutsideRange = 4,
    AlreadyFilled = 5,
    SharesAboveWhole = 7,
    RecordLacking = 8,
    NoSuchYear = 9,
    NoSuchMonthOfHours = 10,
    BadHour = 11,
    SumTooLarge = 12,
}

/// A refusal, with the place that the paper's table gives for its number.
#[derive(Clone, Copy, Debug, PartialEq, Eq)]
pub struct Refusal {
    pub reason: Reason,
    pub place: u16,
}

impl Refusal {
    pub const fn at(reason: Reason, place: u16) -> Refusal {
        Refusal { reason, place }
    }

    /// For the reasons whose place is always 0.
    pub const fn of(reason: Reason) -> Refusal {
        Refusal::at(reason, 0)
    }

    pub const fn number(self) -> u8 {
        self.reason as u8
    }
}

impl fmt::Display for Refusal {
    fn fmt(&self, f: &mut fmt::Formatter<'_>) -> fmt::Result {
        write!(f, "refused {} at {}", self.number(), self.place)
    }
}

impl std::error::Error for Refusal {}
