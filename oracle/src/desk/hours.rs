//! Hours as text: one to four digits, then perhaps a comma and one or two
//! digits.
//!
//! Assumes that an hour is a whole number of hundredths from 0 to
//! `LAST_HOUR`, and that a field comes without the tabs and the line end
//! around it.

use crate::desk::buffer::put_in_front;
use crate::desk::numbers::{read_digit, read_plain_number, write_number};
use crate::desk::refusal::{within, Refusal};

/// The last hour, 9999,99 as text.
pub const LAST_HOUR: u32 = 999_999;

/// The hour in hundredths, or none if the field is not an hour.
///
/// The whole part obeys the same rule as a plain number, so it is read as one.
pub fn read_hour(field: &[u8]) -> Option<u32> {
    match field.iter().position(|&byte| byte == b',') {
        None => Some(read_plain_number(field)? * 100),
        Some(comma) => {
            let whole = read_plain_number(&field[..comma])?;
            Some(whole * 100 + read_hundredths(&field[comma + 1..])?)
        }
    }
}

/// What stands after the comma: one digit means tenths.
fn read_hundredths(digits: &[u8]) -> Option<u32> {
    match digits {
        [tenths] => Some(read_digit(*tenths)? * 10),
        [tenths, hundredths] => Some(read_digit(*tenths)? * 10 + read_digit(*hundredths)?),
        _ => None,
    }
}

/// Puts the hour at the end of the text, always with two digits after the comma.
pub fn write_hour(text: &mut Vec<u8>, hour: u32) {
    write_number(text, hour / 100);
    text.push(b',');
    text.push(b'0' + (hour / 10 % 10) as u8);
    text.push(b'0' + (hour % 10) as u8);
}

/// Writes any hour given as a number to the front of the buffer and gives the
/// length of what was written.
pub fn put_hour(buffer: &mut [u8], hour: u32) -> Result<usize, Refusal> {
    let mut text = Vec::new();
    write_hour(&mut text, within(hour, 0, LAST_HOUR)?);
    put_in_front(buffer, &text)
}
