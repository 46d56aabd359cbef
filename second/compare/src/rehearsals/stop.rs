//! Where a day stops, and what comes from there on.

use crate::random::Random;
use crate::tables::table::Table;
use second::arrival::Arrival;
use second::limits::CLOCK;

/// The largest number of fifteen digits.
const DIGITS: u64 = 999_999_999_999_999;

/// At once, at an arrival, inside its run, after the last one, at the clock's limit; mostly when all is long done.
pub fn of(random: &mut Random, table: &Table, arrivals: &[Arrival]) -> u64 {
    let last = arrivals.last().map_or(0, |arrival| arrival.time);
    let any = match arrivals.len() {
        0 => last,
        number => {
            let arrival = arrivals[random.place(number)];
            // Somewhere from an arrival to the end that its run would have alone.
            arrival.time + random.between(0, arrival.length)
        }
    };
    let period = table.numbers.iter().skip(1).step_by(2).max();
    let period = u64::from(period.copied().unwrap_or(1));
    let later = last + random.between(1, 10 * period);
    let stop = match random.below(16) {
        0 => 0,
        1..=3 => any,
        4 => last,
        5 => last + 1,
        6 => CLOCK,
        7 => CLOCK - random.below(3),
        8..=10 => last + random.between(1, period),
        _ => later,
    };
    stop.min(CLOCK)
}

/// Arrivals at the stop or later, which are not taken.
pub fn arrivals_after(
    random: &mut Random,
    arrivals: &[Arrival],
    stop: u64,
    costs: &[u64],
) -> Vec<Arrival> {
    let mut time = arrivals.last().map_or(0, |arrival| arrival.time).max(stop);
    let mut after = Vec::new();
    for _ in 0..random.between(1, 3) {
        let task = random.place(costs.len());
        let (task, length) = (task as u64 + 1, random.between(1, costs[task]));
        after.push(Arrival { time, task, length });
        time = random
            .pick(&[time, time + 1, CLOCK, CLOCK + 1, DIGITS])
            .max(time);
    }
    after
}
