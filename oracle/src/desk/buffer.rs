//! Writing to a buffer of limited room, which is lent by somebody else.
//!
//! Assumes that the text was made from numbers in range, since a number out
//! of range is refused before the room is looked at.

use crate::desk::refusal::Refusal;

/// Puts the text at the front of the buffer and gives its length. The bytes
/// behind it stay, and all bytes stay where the room is too short.
pub fn put_in_front(buffer: &mut [u8], text: &[u8]) -> Result<usize, Refusal> {
    let front = buffer
        .get_mut(..text.len())
        .ok_or(Refusal::BufferTooShort)?;
    front.copy_from_slice(text);
    Ok(text.len())
}
