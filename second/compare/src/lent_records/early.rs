//! Deadlines and last releases around the clock, so that runs are held for a tick more, or no longer.

use crate::random::Random;
use second::limits::CLOCK;
use second::task::Task;

/// A deadline whose run is released a tick before the clock, at it or a tick after it; or one that no release gives.
pub fn deadline(random: &mut Random, clock: u64, task: &Task) -> u64 {
    let due = task.due_after();
    let around = clock + due + random.below(3) - 1;
    let below = random.below(due);
    random.pick(&[around, around, around, around, below, due - 1, due])
}

/// A last release a little above the clock, or the last that an early one can follow and those beside it, or the limit.
pub fn last_release(random: &mut Random, clock: u64, task: &Task) -> u64 {
    let ahead = clock + random.below(2 * task.period + 1);
    let latest = CLOCK - task.period + random.below(3) - 1;
    random.pick(&[clock + 1, ahead, ahead, latest, latest, CLOCK])
}
