//! Calls around the instant until which a run is held: a tick before it, at it and a tick after it.

use super::call::{Call, Name};
use super::due::oldest;
use crate::random::Random;
use second::record::Record;

/// A call for a task with held runs; None where there is none.
pub fn call(random: &mut Random, record: &Record) -> Option<Call> {
    let tasks = (1..=record.count).filter(|&task| waits(record, task));
    let tasks: Vec<u64> = tasks.collect();
    if tasks.is_empty() {
        return None;
    }
    let task = random.pick(&tasks);
    let (released, core) = oldest(record, task)?;
    if released <= record.clock {
        return Some(first(record, task));
    }
    let (name, number) = random.pick(&[(Name::Finish, task), (Name::Look, core)]);
    Some(Call {
        name,
        number,
        time: released + random.below(3) - 1,
    })
}

/// Whether a task's oldest run is held at the clock, or its last one.
fn waits(record: &Record, task: u64) -> bool {
    let last = record.states[task as usize - 1].last;
    oldest(record, task).is_some_and(|(released, _)| released.max(last) > record.clock)
}

/// A finish of a run that is not held, so that a held one becomes the oldest.
fn first(record: &Record, task: u64) -> Call {
    Call {
        name: Name::Finish,
        number: task,
        time: record.clock,
    }
}
