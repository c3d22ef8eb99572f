//! Generated lines as text, with every way of spelling an hour.
//!
//! Assumes that the hours handed in are in range; the numbers may be out of
//! theirs, since faulty lines are wanted too.

use crate::desk::hours::write_hour;
use crate::desk::lines::{LINE_END, TAB};
use crate::desk::numbers::write_number;
use crate::generate::chance::Chance;

#[derive(Clone, Copy)]
pub enum Spelling {
    /// As few bytes as the hour allows.
    Shortest,
    /// Two digits after the comma, as the writer does.
    Written,
    /// Each hour spelled in one of all its ways.
    Any,
}

/// The hour in hundredths, as text.
pub fn spell_hour(chance: &mut Chance, spelling: Spelling, hour: u32) -> Vec<u8> {
    let mut text = Vec::new();
    write_hour(&mut text, hour);
    let spare = match hour {
        whole if whole % 100 == 0 => 2,
        tenths if tenths % 10 == 0 => 1,
        _ => 0,
    };
    let dropped = match spelling {
        Spelling::Shortest => spare,
        Spelling::Written => 0,
        Spelling::Any => chance.between(0, spare),
    };
    match dropped {
        0 => {}
        1 => text.truncate(text.len() - 1),
        // The comma goes with the last of its digits.
        _ => text.truncate(text.len() - 3),
    }
    text
}

/// The number as text.
pub fn spell_number(number: u32) -> Vec<u8> {
    let mut text = Vec::new();
    write_number(&mut text, number);
    text
}

/// The fields with tabs between them and a line end behind.
pub fn join_fields(fields: &[Vec<u8>]) -> Vec<u8> {
    let mut line = fields.join(&TAB);
    line.push(LINE_END);
    line
}
