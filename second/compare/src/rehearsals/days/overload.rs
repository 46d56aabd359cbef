//! More than a box can do: a few tasks that come far too often, until their eight places are full.

use super::Tasks;
use crate::random::Random;
use second::arrival::Arrival;

pub fn arrivals(random: &mut Random, tasks: &Tasks, number: usize) -> Vec<Arrival> {
    let often: Vec<u64> = (0..random.between(1, 3))
        .map(|_| tasks.any(random))
        .collect();
    let pause = tasks.period(often[0]);
    let mut time = 0;
    let mut arrivals = Vec::new();
    while arrivals.len() < number.max(12) {
        let any = tasks.any(random);
        let favourite = random.pick(&often);
        let task = random.pick(&[favourite, favourite, favourite, any]);
        arrivals.push(tasks.run(random, task, time));
        time += random.pick(&[0, 0, 1, pause / 5, pause / 2]);
    }
    arrivals
}
