//! Plain numbers as text: read as the paper allows, written without zeros in
//! front.
//!
//! Assumes that a field is handed in without the tabs and the line end around
//! it. Nothing is skipped: every byte of the field must be a digit.

/// The longest plain number, in digits.
const MOST_DIGITS: usize = 4;

/// The number that the field spells, or none if it is not a plain number.
pub fn read_plain_number(field: &[u8]) -> Option<u32> {
    if field.is_empty() || field.len() > MOST_DIGITS {
        return None;
    }
    if field[0] == b'0' && field.len() > 1 {
        return None;
    }
    let mut number = 0;
    for &byte in field {
        number = number * 10 + read_digit(byte)?;
    }
    Some(number)
}

/// The value of a single digit, or none for any other byte.
pub fn read_digit(byte: u8) -> Option<u32> {
    byte.is_ascii_digit().then(|| u32::from(byte - b'0'))
}

/// Puts a number of any size at the end of the text.
pub fn write_number(text: &mut Vec<u8>, number: u32) {
    // A number of 32 bits has at most ten digits.
    let mut digits = [b'0'; 10];
    let mut place = digits.len();
    let mut rest = number;
    loop {
        place -= 1;
        digits[place] += (rest % 10) as u8;
        rest /= 10;
        if rest == 0 {
            break;
        }
    }
    text.extend_from_slice(&digits[place..]);
}
