//! The refusal numbers that the second program can give.
//!
//! Assumes the numbering of the paper's table, which has no number 10.

#[derive(Clone, Copy, Debug, PartialEq, Eq)]
pub enum Refusal {
    Shape = 1,
    NotPlainNumber = 2,
    NotHour = 3,
    OutOfRange = 4,
    BelowClock = 5,
    BookFull = 6,
    BufferTooShort = 7,
    BookUnsound = 8,
    TextTooLong = 9,
    NoSuchOrder = 11,
    SameOrder = 12,
    BeforeReady = 13,
    AfterDue = 14,
    Overlap = 15,
}

impl Refusal {
    pub fn number(self) -> u32 {
        self as u32
    }
}

/// The number itself, or refused where it is out of this range.
pub fn within(number: u32, least: u32, most: u32) -> Result<u32, Refusal> {
    if (least..=most).contains(&number) {
        Ok(number)
    } else {
        Err(Refusal::OutOfRange)
    }
}
