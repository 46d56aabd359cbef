//! Long quiet times between bursts of any tasks.

use super::Tasks;
use crate::random::Random;
use second::arrival::Arrival;

pub fn arrivals(random: &mut Random, tasks: &Tasks, number: usize) -> Vec<Arrival> {
    let quiet = random.pick(&[100, 10_000, 1_000_000, 1_000_000_000]);
    let within = random.pick(&[1, 2, 10]);
    let mut time = random.below(quiet);
    let mut arrivals = Vec::new();
    while arrivals.len() < number {
        for _ in 0..random.between(1, 30) {
            let task = tasks.any(random);
            arrivals.push(tasks.run(random, task, time));
            time += random.below(within);
        }
        time += random.below(quiet);
    }
    arrivals
}
