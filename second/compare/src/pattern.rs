//! What lent memory is filled with.

/// Bytes in front of all that is lent, which come back too.
pub const BEFORE: usize = 64;

/// So many bytes of a pattern, the given one first.
pub fn filled(pattern: u8, length: usize) -> Vec<u8> {
    (0..length)
        .map(|place| pattern.wrapping_add(place as u8))
        .collect()
}
