//! Any task at any time: close, a period apart, or far.

use super::Tasks;
use crate::random::Random;
use second::arrival::Arrival;

pub fn arrivals(random: &mut Random, tasks: &Tasks, number: usize) -> Vec<Arrival> {
    let mut time = 0;
    let mut arrivals = Vec::new();
    for _ in 0..number {
        let task = tasks.any(random);
        let period = tasks.period(task);
        let any = random.below(2 * period);
        time += random.pick(&[0, 1, any, any, period, 1_000_000_000]);
        arrivals.push(tasks.run(random, task, time));
    }
    arrivals
}
