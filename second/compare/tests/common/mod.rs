//! The header's record, by the places of its numbers.
#![allow(dead_code)]

/// A number of so many bytes at a place.
pub fn number(bytes: &[u8], place: usize, length: usize) -> u64 {
    let bytes = bytes[place..place + length].iter().rev();
    bytes.fold(0, |number, &byte| number << 8 | u64::from(byte))
}

/// The name and width of the number that a byte belongs to, and its place in it.
pub fn number_at(place: usize) -> (&'static str, usize, usize) {
    let (name, width, start) = match place {
        0..4 => ("cores", 4, 0),
        4..8 => ("common", 4, 4),
        8..16 => ("count", 8, 8),
        16..4_880 => match (place - 16) % 76 {
            0..4 => ("cost", 4, 16),
            4..8 => ("period", 4, 16),
            8..12 => ("weight", 4, 16),
            _ => ("share", 4, 16),
        },
        4_880..4_888 => ("clock", 8, 4_880),
        _ => match (place - 4_888) % 152 {
            0..8 => ("last", 8, 4_888),
            8..72 => ("deadline", 8, 4_888),
            72..136 => ("turns", 4, 4_888),
            136..140 => ("place", 4, 4_888),
            140..148 => ("core", 1, 4_888),
            148..150 => ("unfinished", 2, 4_888),
            _ => ("had", 2, 4_888),
        },
    };
    (name, width, (place - start) % width)
}
