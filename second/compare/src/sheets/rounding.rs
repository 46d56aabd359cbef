//! Nanoseconds that are read as so many ticks: whole ones, one off, and any between.

use crate::random::Random;

/// A cost and a period that are read as these.
pub fn spread(random: &mut Random, cost: u64, period: u64, tick: u64) -> (u64, u64) {
    (
        (cost * tick).saturating_sub(less(random, tick)),
        period * tick + less(random, tick),
    )
}

/// From nothing to one less than a tick.
fn less(random: &mut Random, tick: u64) -> u64 {
    let any = random.below(tick);
    random.pick(&[0, 0, 1.min(tick - 1), tick - 1, any])
}
