//! All tasks at once, perhaps again and again.

use super::Tasks;
use crate::random::Random;
use second::arrival::Arrival;

pub fn arrivals(random: &mut Random, tasks: &Tasks, number: usize) -> Vec<Arrival> {
    let mut time = random.pick(&[0, 0, 7, 1_000_000]);
    let first = tasks.any(random);
    let mut arrivals = Vec::new();
    while arrivals.len() < number.max(10) {
        // From any task on, so that list order and task order differ.
        for step in 0..tasks.number() {
            let task = 1 + (first + step) % tasks.number();
            arrivals.push(tasks.run(random, task, time));
        }
        time += random.pick(&[0, 1, tasks.period(first), tasks.period(first) + 1]);
    }
    arrivals
}
