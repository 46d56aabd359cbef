//! Rows of one task's runs that come early, and others around the instants until which they are held.

use super::Tasks;
use crate::random::Random;
use second::arrival::Arrival;

pub fn arrivals(random: &mut Random, tasks: &Tasks, number: usize) -> Vec<Arrival> {
    let mut time = random.pick(&[0, 1, 1_000]);
    let mut arrivals = Vec::new();
    while arrivals.len() < number.max(4) {
        let task = tasks.any(random);
        let row = random.pick(&[2, 3, 8, 9, 10, 12]);
        time = row_of(random, tasks, task, row, time, &mut arrivals);
        time += random.pick(&[0, 1, tasks.period(task), 20 * tasks.period(task)]);
    }
    arrivals
}

/// A row from a time on, and where it ends.
fn row_of(
    random: &mut Random,
    tasks: &Tasks,
    task: u64,
    row: u64,
    mut time: u64,
    arrivals: &mut Vec<Arrival>,
) -> u64 {
    let (start, period) = (time, tasks.period(task));
    let gap = random.pick(&[0, 0, 1, period / 3, period.saturating_sub(1)]);
    for _ in 0..row {
        arrivals.push(tasks.run(random, task, time));
        time += gap;
    }
    for _ in 0..random.below(row) {
        let other = tasks.any(random);
        let ready = start + period * random.between(1, row) + random.below(3);
        arrivals.push(tasks.run(random, other, ready - 1));
    }
    time
}
