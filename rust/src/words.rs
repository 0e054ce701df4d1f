//! The words of files and events: little-endian, 32 bits wide.

use crate::limits::WORD_BYTES;

/// The word at a place.
pub fn word_at(bytes: &[u8], place: usize) -> u32 {
    let mut word = [0; WORD_BYTES];
    word.copy_from_slice(&bytes[place..place + WORD_BYTES]);
    u32::from_le_bytes(word)
}

/// The word at a place as a signed number: two's complement, so the same four bytes.
pub fn signed_at(bytes: &[u8], place: usize) -> i32 {
    word_at(bytes, place) as i32
}

/// Replaces the word at a place.
pub fn set_word(bytes: &mut [u8], place: usize, word: u32) {
    bytes[place..place + WORD_BYTES].copy_from_slice(&word.to_le_bytes());
}
