//! Periods with any divisor in common, so that the two programs' ways to find it are held against each other.

use super::table::Table;
use crate::random::Random;
use second::limits::PERIOD;

/// Numbers that all periods of a table are multiples of: odd ones, powers of two, and others.
const SHARED: [u64; 10] = [1, 1, 2, 3, 8, 45, 96, 1_001, 1_024, 65_536];

/// Light tasks with multiples of one number as periods, small ones or any up to the longest.
pub fn table(random: &mut Random) -> Table {
    let shared = random.pick(&SHARED);
    let longest = PERIOD / shared;
    let most = random.pick(&[longest.min(12), longest.min(100), longest]);
    let mut numbers = Vec::new();
    for _ in 0..random.between(2, 6) {
        let period = shared * random.between(1, most);
        numbers.extend([random.between(1, period.div_ceil(6)) as u32, period as u32]);
    }
    Table {
        cores: random.between(1, 16) as u32,
        numbers,
    }
}
