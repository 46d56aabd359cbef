//! Calls with numbers and times around every limit.

use super::call::{Call, NAMES};
use super::due::due;
use crate::random::Random;
use second::limits::CLOCK;
use second::record::Record;

/// The largest number of fifteen digits.
const DIGITS: u64 = 999_999_999_999_999;

pub fn call(random: &mut Random, record: &Record) -> Call {
    Call {
        name: random.pick(&NAMES),
        number: number(random, record),
        time: time(random, record),
    }
}

/// 0, the last ones, those after them, any.
fn number(random: &mut Random, record: &Record) -> u64 {
    let (tasks, cores) = (record.count, record.cores);
    let known = [0, 1, tasks, tasks + 1, cores, cores + 1, 64, 65, 17, DIGITS];
    match random.below(3) {
        0 => random.any_length() % (DIGITS + 1),
        _ => random.pick(&known),
    }
}

/// Around the clock, around a task's due time, at the clock's limit, a period before it and above it.
fn time(random: &mut Random, record: &Record) -> u64 {
    let clock = record.clock;
    let task = random.between(1, record.count);
    let due = due(record, task);
    let period = record.tasks[task as usize - 1].period;
    // A release a period before the limit is the last that an early one can follow.
    let last = random.pick(&[CLOCK, CLOCK - period, CLOCK - period + 1]);
    // Few calls are made once the clock stands at its limit, so it is rarely set there.
    let limit = if random.one_in(30) { last } else { clock };
    let known = [
        0,
        clock.saturating_sub(1),
        clock,
        clock + 1,
        due.saturating_sub(1),
        due,
        limit,
        CLOCK + 1,
        DIGITS,
    ];
    match random.below(4) {
        0 => random.below(clock + 1),
        _ => random.pick(&known),
    }
}
