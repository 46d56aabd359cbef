//! Common periods at their limit, and over it.

use super::fit::{divisors, Room};
use super::table::Table;
use crate::random::Random;

/// Common periods at the limit or close below it.
const WITHIN: [u64; 8] = [
    1_000_000, 1_000_000, 999_999, 999_998, 999_936, 999_600, 982_800, 720_720,
];
/// Numbers over the limit, close or far: their divisors' common period is often over it too.
const OVER: [u64; 8] = [
    1_000_001,
    1_000_002,
    1_001_000,
    1_000_008,
    1_081_080,
    3_000_000,
    2_000_000,
    999_983 * 999_979,
];

/// A table with periods that divide one near the limit.
pub fn within(random: &mut Random) -> Table {
    let common = random.pick(&WITHIN);
    let periods = divisors(common);
    let cores = random.between(1, 16);
    let mut room = Room::new(cores, common);
    let heavy = random.one_in(3);
    let number = random.between(1, 64);
    room.add_some(random, number, &periods, heavy);
    Table {
        cores: cores as u32,
        numbers: room.finish(),
    }
}

/// A table with periods that divide a number over the limit, light enough to be refused for that alone.
pub fn over(random: &mut Random) -> Table {
    let over = random.pick(&OVER);
    let periods = divisors(over);
    let mut numbers = Vec::new();
    for _ in 0..random.between(1, 64) {
        let period = random.pick(&periods);
        let most = (period / 64).max(1);
        numbers.extend([random.between(1, most) as u32, period as u32]);
    }
    Table {
        cores: random.between(1, 16) as u32,
        numbers,
    }
}
