//! Tick lengths in their range, in nanoseconds.

use crate::random::Random;

/// 232,830 is the longest tick of which 2^32 have 15 digits.
const LENGTHS: [u64; 16] = [
    1, 1, 2, 3, 7, 10, 64, 999, 1_000, 1_000, 1_000, 65_536, 232_830, 232_831, 999_999, 1_000_000,
];

/// One of a list, else any.
pub fn length(random: &mut Random) -> u64 {
    match random.below(6) {
        0 => random.between(1, second::limits::TICK),
        _ => random.pick(&LENGTHS),
    }
}
