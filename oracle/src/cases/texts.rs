//! The words of a case file: numbers, and texts of any bytes written without
//! spaces and line ends.
//!
//! Assumes that a word is handed in without the spaces around it. In a text
//! the bytes from `!` to `~` stand for themselves, but a backslash begins one
//! of these:
//!
//! - `\t`, `\n`, `\s`, `\\`: a tab, a line end, a space, a backslash;
//! - `\xHH`: the byte with these two hexadecimal digits in lower case;
//! - `\e`: no byte at all, so that the empty text can be written;
//! - `\{N}`: the byte before it stands N times in all. It is read only.

use crate::desk::lines::{LINE_END, TAB};
use crate::desk::numbers::read_digit;

/// Longer texts are not read. It is a little more than a list or a plan may
/// have, so that one that is too long can be written.
const LONGEST_CASE_TEXT: usize = 65_600;

/// The number of up to 32 bits that the word spells, or none.
pub fn read_case_number(word: &[u8]) -> Option<u32> {
    if word.is_empty() {
        return None;
    }
    word.iter().try_fold(0u32, |number, &byte| {
        number.checked_mul(10)?.checked_add(read_digit(byte)?)
    })
}

/// The text that the word stands for, or none if it stands for no text.
pub fn read_case_text(word: &[u8]) -> Option<Vec<u8>> {
    if word.is_empty() {
        return None;
    }
    let mut text = Vec::new();
    let mut rest = word;
    while !rest.is_empty() {
        rest = read_piece(&mut text, rest)?;
        if text.len() > LONGEST_CASE_TEXT {
            return None;
        }
    }
    Some(text)
}

/// Adds to the text what the front of the word stands for, and gives the rest
/// of the word.
fn read_piece<'word>(text: &mut Vec<u8>, word: &'word [u8]) -> Option<&'word [u8]> {
    let (byte, rest) = match *word {
        [b'\\', b'e', ref rest @ ..] => return Some(rest),
        [b'\\', b'{', ref rest @ ..] => return repeat_last(text, rest),
        [b'\\', b'x', high, low, ref rest @ ..] => (16 * read_hex(high)? + read_hex(low)?, rest),
        [b'\\', b't', ref rest @ ..] => (TAB, rest),
        [b'\\', b'n', ref rest @ ..] => (LINE_END, rest),
        [b'\\', b's', ref rest @ ..] => (b' ', rest),
        [b'\\', b'\\', ref rest @ ..] => (b'\\', rest),
        [b'\\', ..] => return None,
        [byte @ b'!'..=b'~', ref rest @ ..] => (byte, rest),
        _ => return None,
    };
    text.push(byte);
    Some(rest)
}

/// Repeats the last byte of the text as the word says, which goes on behind
/// the opening brace.
fn repeat_last<'word>(text: &mut Vec<u8>, word: &'word [u8]) -> Option<&'word [u8]> {
    let end = word.iter().position(|&byte| byte == b'}')?;
    let last = *text.last()?;
    // The byte stands there once already.
    let more = read_case_number(&word[..end])?.checked_sub(1)? as usize;
    let length = text.len() + more;
    // Looked at here as well, since a huge number would fill the memory.
    if length > LONGEST_CASE_TEXT {
        return None;
    }
    text.resize(length, last);
    Some(&word[end + 1..])
}

fn read_hex(digit: u8) -> Option<u8> {
    match digit {
        b'0'..=b'9' => Some(digit - b'0'),
        b'a'..=b'f' => Some(digit - b'a' + 10),
        _ => None,
    }
}

/// Puts the word for these bytes at the end of the line.
pub fn write_case_text(line: &mut Vec<u8>, text: &[u8]) {
    if text.is_empty() {
        line.extend_from_slice(b"\\e");
    }
    for &byte in text {
        match byte {
            TAB => line.extend_from_slice(b"\\t"),
            LINE_END => line.extend_from_slice(b"\\n"),
            b' ' => line.extend_from_slice(b"\\s"),
            b'\\' => line.extend_from_slice(b"\\\\"),
            b'!'..=b'~' => line.push(byte),
            _ => line.extend_from_slice(format!("\\x{byte:02x}").as_bytes()),
        }
    }
}
