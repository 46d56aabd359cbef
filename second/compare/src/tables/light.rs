//! Sixty-four light tasks, of equal weights or of many.

use super::fit::divisors;
use super::table::Table;
use crate::random::Random;

pub fn table(random: &mut Random) -> Table {
    let common = random.pick(&[64, 120, 1_000, 30_030, 720_720, 1_000_000]);
    let periods = divisors(common);
    let equal = random.one_in(3).then(|| random.pick(&periods));
    let part = random.pick(&[64, 16, 5, 4]);
    let numbers = (0..random.pick(&[64, 64, 63, 40])).flat_map(|_| {
        let period = equal.unwrap_or_else(|| random.pick(&periods));
        let most = (period / part).max(1);
        [random.between(1, most) as u32, period as u32]
    });
    let numbers = numbers.collect();
    Table {
        cores: random.pick(&[1, 2, 4, 8, 15, 16]),
        numbers,
    }
}
