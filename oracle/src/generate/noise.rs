//! Texts of no order at all, and the stretching of a text to a length near
//! the most that a text may have.
//!
//! Assumes that bytes of any value may come, and that most noise worth having
//! is made of the few bytes that good texts are made of.

use crate::desk::lines::{LINE_END, LONGEST_TEXT};
use crate::generate::chance::Chance;

/// The bytes of good lines, with tabs and line ends often enough that lines
/// of three fields come about.
const LINE_BYTES: &[u8] = b"0123456789,,\t\t\t\t\n\n\n";

/// The bytes at which reading an hour can turn.
const HOUR_BYTES: &[u8] = b"0019,,5";

/// Bytes of any value.
pub fn any_bytes(chance: &mut Chance, length: usize) -> Vec<u8> {
    (0..length).map(|_| chance.byte()).collect()
}

/// Bytes of good lines in no order.
pub fn line_bytes(chance: &mut Chance, length: usize) -> Vec<u8> {
    (0..length).map(|_| chance.pick(LINE_BYTES)).collect()
}

/// A line of three fields whose hours are made of digits and commas in no
/// order. The first number is good, so that the hours are reached.
pub fn hour_noise_line(chance: &mut Chance) -> Vec<u8> {
    let mut line = b"5\t".to_vec();
    hour_bytes(chance, &mut line);
    line.push(b'\t');
    hour_bytes(chance, &mut line);
    line.push(LINE_END);
    line
}

fn hour_bytes(chance: &mut Chance, line: &mut Vec<u8>) {
    if chance.one_in(3) {
        line.push(b'0');
        return;
    }
    for _ in 0..chance.below(9) {
        line.push(chance.pick(HOUR_BYTES));
    }
}

/// A length at, just beside or beyond the most that a text may have.
pub fn length_about_limit(chance: &mut Chance) -> usize {
    match chance.below(10) {
        0 => LONGEST_TEXT - 1,
        1..=3 => LONGEST_TEXT,
        4..=6 => LONGEST_TEXT + 1,
        7 => LONGEST_TEXT + 2,
        8 => LONGEST_TEXT - chance.place(64),
        _ => chance.pick(&[70_000, 2 * LONGEST_TEXT, 2 * LONGEST_TEXT + 1, 300_000]),
    }
}

/// Repeats the filler behind the text up to exactly this length; the last
/// byte is made a line end as often as not. The filler is not empty.
pub fn stretch(chance: &mut Chance, text: &mut Vec<u8>, filler: &[u8], length: usize) {
    while text.len() < length {
        text.extend_from_slice(filler);
    }
    text.truncate(length);
    if chance.one_in(2) {
        if let Some(last) = text.last_mut() {
            *last = LINE_END;
        }
    }
}
