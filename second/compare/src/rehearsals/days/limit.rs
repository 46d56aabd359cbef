//! Days that end at the clock's limit: rows that are held up to it and past it, and far arrivals after early ones.

use super::{sparse, Tasks};
use crate::random::Random;
use second::arrival::Arrival;
use second::limits::{CLOCK, RUNS};

pub fn arrivals(random: &mut Random, tasks: &Tasks, number: usize) -> Vec<Arrival> {
    let mut arrivals = match random.below(2) {
        0 => sparse::arrivals(random, tasks, number.min(10)),
        _ => Vec::new(),
    };
    arrivals.retain(|arrival| arrival.time < CLOCK / 2);
    let task = tasks.any(random);
    let row = random.between(1, 11);
    // The last runs of the row are released a few ticks or periods around the limit.
    let periods = random.between(0, row.min(RUNS as u64 + 1));
    let start = CLOCK + random.below(3) - 1;
    let start = (start - periods * tasks.period(task)).min(CLOCK);
    for _ in 0..row {
        arrivals.push(tasks.run(random, task, start));
    }
    for _ in 0..random.below(6) {
        let other = tasks.any(random);
        let time = CLOCK - random.pick(&[0, 1, 2, 10, 1_000]);
        arrivals.push(tasks.run(random, other, time));
    }
    arrivals
}
