//! How long a buffer the host lends.

use crate::random::Random;

/// Enough for any listing.
pub const ENOUGH: usize = 15_960;
/// Longer than any listing.
const MOST: u64 = 17_000;

/// None, one byte, around a listing's length, enough for any, more.
pub fn length(random: &mut Random, listing: usize) -> usize {
    let listing = listing as u64;
    let length = match random.below(16) {
        0 => 0,
        1 => 1,
        2..=10 => (listing + random.below(7)).saturating_sub(3),
        11 => random.below(listing + 1),
        12 => random.below(MOST),
        13 => ENOUGH as u64,
        _ => listing + random.below(300),
    };
    length as usize
}
