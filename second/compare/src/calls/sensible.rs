//! Calls that are accepted, or nearly: a release on time or early, a finish of what has runs, a look.

use super::call::{Call, Name};
use super::due::{due, oldest};
use super::pace::Pace;
use crate::random::Random;
use second::limits::RUNS;
use second::record::{Record, State};

pub fn call(random: &mut Random, record: &Record, pace: &Pace) -> Call {
    let later = record.clock + random.below(pace.step + 1);
    let ten = random.below(10);
    if ten < pace.finishes {
        finish(random, record, later)
    } else if ten < pace.finishes + pace.looks {
        Call {
            name: Name::Look,
            number: random.between(1, record.cores),
            time: later,
        }
    } else {
        release(random, record, pace, later)
    }
}

fn state(record: &Record, task: u64) -> &State {
    &record.states[task as usize - 1]
}

/// A release that is on time or later, or one that is early.
fn release(random: &mut Random, record: &Record, pace: &Pace, later: u64) -> Call {
    if random.below(10) < pace.early {
        return early(random, record, pace, later);
    }
    let tasks = (0..4).map(|_| random.between(1, record.count));
    let task = tasks.min_by_key(|&task| due(record, task)).unwrap_or(1);
    // A task that is full stays so until one of its runs is finished.
    if state(record, task).unfinished == RUNS as u64 && !random.one_in(8) {
        return finish_of(random, record, task, later);
    }
    let due = due(record, task).max(record.clock);
    Call {
        name: Name::Release,
        number: task,
        time: random.pick(&[due, due, due.max(later)]),
    }
}

/// An early release, mostly of the same task, so that its eight places fill.
fn early(random: &mut Random, record: &Record, pace: &Pace, later: u64) -> Call {
    let any = random.between(1, record.count);
    let favourite = pace.favourite(record);
    let task = random.pick(&[favourite, favourite, any]);
    if state(record, task).unfinished == RUNS as u64 && !random.one_in(3) {
        return finish_of(random, record, task, later);
    }
    Call {
        name: Name::Release,
        number: task,
        time: early_time(random, record, task),
    }
}

/// At once, at the last release, or a period less one tick after it.
fn early_time(random: &mut Random, record: &Record, task: u64) -> u64 {
    let tick_early = due(record, task).saturating_sub(1);
    let last = state(record, task).last;
    let time = random.pick(&[record.clock, record.clock, last, tick_early]);
    time.max(record.clock)
}

/// A finish of a task with runs, if a few tries find one.
fn finish(random: &mut Random, record: &Record, later: u64) -> Call {
    let runs = |task: &u64| state(record, *task).unfinished;
    let tasks = (0..4).map(|_| random.between(1, record.count));
    let task = tasks.max_by_key(runs).unwrap_or(1);
    finish_of(random, record, task, later)
}

/// At once, at the oldest run's release or its deadline if they are still to come, or later.
fn finish_of(random: &mut Random, record: &Record, task: u64, later: u64) -> Call {
    let released = oldest(record, task).map_or(0, |(released, _)| released);
    let deadline = state(record, task).runs[0].deadline;
    let on_time = deadline.clamp(record.clock, later);
    let released = released.max(record.clock);
    Call {
        name: Name::Finish,
        number: task,
        time: random.pick(&[record.clock, on_time, later, released]),
    }
}
