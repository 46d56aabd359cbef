//! Every task on time, period after period, so that a full box is busy without end.

use super::Tasks;
use crate::random::Random;
use second::arrival::Arrival;

pub fn arrivals(random: &mut Random, tasks: &Tasks, number: usize) -> Vec<Arrival> {
    let spread = random.pick(&[0, 0, 1, 20]);
    let mut next: Vec<u64> = (0..tasks.number())
        .map(|_| random.between(0, spread))
        .collect();
    let late = random.pick(&[0, 0, 2]);
    let mut arrivals = Vec::new();
    while arrivals.len() < number {
        let task = (0..next.len()).min_by_key(|&task| next[task]);
        let task = task.unwrap_or(0);
        arrivals.push(tasks.run(random, task as u64 + 1, next[task]));
        next[task] += tasks.period(task as u64 + 1) + random.between(0, late);
    }
    arrivals
}
