//! Faulty arrivals: each refusal alone, and before those that are tested after it.

use super::draft::{line, Draft};
use super::words;
use crate::random::Random;
use second::arrival::Arrival;

/// The largest number of fifteen digits.
const DIGITS: u64 = 999_999_999_999_999;

/// Puts one to three faults into one arrival.
pub fn put(random: &mut Random, draft: &mut Draft) {
    // 25, 26 and 27: one of them, two or all.
    let faults = random.pick(&[1, 1, 2, 2, 4, 4, 4, 3, 6, 5, 7]);
    let falls = faults & 4 != 0;
    let place = place(random, draft, falls);
    let mut arrival = draft.arrivals[place];
    if falls {
        let before = draft.arrivals[place - 1].time;
        arrival.time = random.pick(&[before - 1, before - 1, 0, before / 2]);
    }
    if faults & 2 != 0 {
        arrival.length = length(random, draft.costs[arrival.task as usize - 1]);
    }
    let mut written = line(&arrival);
    if faults & 1 != 0 {
        let tasks = draft.costs.len() as u64;
        arrival.task = random.pick(&[0, tasks + 1, tasks + 1, 65, DIGITS]);
        written = match random.below(2) {
            0 => line(&arrival),
            _ => words::odd_line(random, &written),
        };
    }
    draft.odd.push((place, written));
}

/// The place of an arrival, one that can fall if it is to; where there is none, such are put at the end.
fn place(random: &mut Random, draft: &mut Draft, falls: bool) -> usize {
    let place = random.place(draft.arrivals.len() + 1);
    let before = draft.arrivals[..place].last().map_or(0, |it| it.time);
    if place < draft.arrivals.len() && (!falls || before > 0) {
        return place;
    }
    let last = draft.arrivals.last().map_or(0, |it| it.time);
    let (task, length) = (1, draft.costs[0]);
    for time in [last, last + 1, last + 1] {
        draft.arrivals.push(Arrival { time, task, length });
    }
    draft.arrivals.len() - 1
}

/// A length out of its range.
fn length(random: &mut Random, cost: u64) -> u64 {
    random.pick(&[0, cost + 1, cost + 1, DIGITS])
}
