//! One task, or a few that have nothing in common.

use super::table::Table;
use crate::random::Random;

pub fn table(random: &mut Random) -> Table {
    let mut numbers = Vec::new();
    for _ in 0..random.pick(&[1, 1, 1, 2, 3]) {
        let most = random.pick(&[1, 2, 10, 1_000, 1_000_000]);
        let any = random.between(1, most);
        let period = random.pick(&[most, any]);
        let any = random.between(1, period);
        let cost = random.pick(&[1, period, any]);
        numbers.extend([cost as u32, period as u32]);
    }
    Table {
        cores: random.pick(&[1, 1, 2, 15, 16]),
        numbers,
    }
}
