//! What a number is spoilt to, and the times and numbers of calls around it.

use crate::calls::due::{due, oldest};
use crate::random::Random;
use second::limits::{CLOCK, COMMON, CORES, RUNS, TASKS};
use second::record::Record;

/// The edges of the widths that numbers are kept in.
const EDGES: [u64; 10] = [
    (1 << 8) - 1,
    1 << 8,
    (1 << 16) - 1,
    1 << 16,
    (1 << 32) - 1,
    1 << 32,
    (1 << 32) + 1,
    1 << 63,
    u64::MAX - 1,
    u64::MAX,
];

/// 0, 1, one more or less, a limit or one beside it, the edge of a width, any.
pub fn spoilt(random: &mut Random, record: &Record, now: u64) -> u64 {
    match random.below(8) {
        0 => 0,
        1 => 1,
        2 => now.wrapping_add(1),
        3 => now.wrapping_sub(1),
        4 | 5 => beside(random, record),
        6 => random.pick(&EDGES),
        _ => random.any_length(),
    }
}

/// 0, 1, the highest, one more or less, one bit flipped, any.
pub fn byte(random: &mut Random, now: u8) -> u8 {
    let (bit, any) = (1 << random.below(8), random.number() as u8);
    let (more, less) = (now.wrapping_add(1), now.wrapping_sub(1));
    random.pick(&[0, 1, u8::MAX, more, less, now ^ bit, any])
}

/// A limit of the rules or of this record, or the number beside it.
fn beside(random: &mut Random, record: &Record) -> u64 {
    let task = &record.tasks[random.below(record.count) as usize];
    let limit = random.pick(&[
        CORES as u64,
        TASKS as u64,
        RUNS as u64,
        COMMON,
        CLOCK,
        CLOCK + task.period,
        task.period,
        task.weight,
        record.common,
        record.cores,
        record.count,
        record.clock,
        record.clock + task.period,
        CLOCK - task.period,
    ]);
    (limit + random.below(3)).saturating_sub(1)
}

/// A call's time: at the clock, when a task is due, when its oldest run is released, at the limit, beside a spoilt value, any.
pub fn time(random: &mut Random, record: &Record, task: u64, spoilt: u64) -> u64 {
    let due = due(record, task);
    let released = oldest(record, task).map_or(record.clock, |(released, _)| released);
    let known = [
        record.clock,
        record.clock + 1,
        record.clock.saturating_sub(1),
        due.max(record.clock),
        due.saturating_sub(1),
        released,
        released + 1,
        released.saturating_sub(1),
        spoilt,
        spoilt.saturating_sub(1),
        CLOCK,
        CLOCK + 1,
    ];
    match random.below(6) {
        0 => random.any_length(),
        1 => record.clock,
        2 => record.clock + random.below(1_000),
        _ => random.pick(&known),
    }
}

/// A task's or a core's number: the spoilt one, the busiest, the last ones and those after them, any.
pub fn number(random: &mut Random, record: &Record, spoilt_task: u64) -> u64 {
    let (tasks, cores) = (record.count, record.cores);
    match random.below(9) {
        0..=2 => spoilt_task,
        3 => random.between(1, tasks),
        4 | 5 => busiest(record),
        6 => random.between(1, cores),
        7 => random.pick(&[0, tasks, tasks + 1, cores, cores + 1, 64, 65, 17, u64::MAX]),
        _ => random.any_length(),
    }
}

/// The task, from 1, with the most runs.
pub fn busiest(record: &Record) -> u64 {
    let runs = |&task: &u64| record.states[task as usize - 1].unfinished;
    (1..=record.count).max_by_key(runs).unwrap_or(1)
}
