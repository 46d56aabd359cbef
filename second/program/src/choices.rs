//! What all cores choose at one instant, and when the next held run becomes ready, by one scan of the tasks.

use crate::choice::Class;
use crate::limits::{CORES, TASKS};
use crate::record::{Record, State};
use crate::task::Task;

/// The place of the task that each core chooses.
pub(crate) type Choices = [Option<usize>; CORES];

/// The choices, and the first release time ahead among all stored runs, else the end of time.
pub(crate) struct Scan {
    pub(crate) chosen: Choices,
    pub(crate) ahead: u64,
}

/// Each mover's first core, from 1, where it is lower; 0 for a fixed task. A plan's tasks keep it all day.
pub(crate) struct Lower([u64; TASKS]);

impl Lower {
    pub(crate) fn of(record: &Record) -> Self {
        Lower(record.tasks.map(|task| match task.first_core() {
            Some(core) if task.moves() => core as u64 + 1,
            _ => 0,
        }))
    }

    /// How a task stands on a core where it has a share.
    fn class(&self, index: usize, core: u64) -> Class {
        match self.0[index] {
            0 => Class::Fixed,
            first if first == core => Class::Lower,
            _ => Class::Upper,
        }
    }
}

/// Scans a record that calls have reached, at its clock: class, then deadline, then task number decide.
pub(crate) fn scan(record: &Record, lower: &Lower) -> Scan {
    let (mut chosen, mut ahead) = ([None; CORES], u64::MAX);
    let mut best = [(Class::Fixed, u64::MAX); CORES];
    for index in 0..record.count as usize {
        let (task, state) = (&record.tasks[index], &record.states[index]);
        let oldest = &state.runs[0];
        if state.unfinished == 0 {
            continue;
        }
        ahead = ahead.min(first_ahead(task, state, record.clock));
        if oldest.held(task, record.clock) {
            continue;
        }
        let key = (lower.class(index, oldest.core), oldest.deadline);
        let core = oldest.core as usize - 1;
        // Of equals the first stays, which has the lowest number.
        if key < best[core] {
            best[core] = key;
            chosen[core] = Some(index);
        }
    }
    Scan { chosen, ahead }
}

/// The first release time ahead among a task's stored runs, else the end of time.
fn first_ahead(task: &Task, state: &State, now: u64) -> u64 {
    // Release times of a task rise: where the last is not ahead, none is.
    if state.last <= now {
        return u64::MAX;
    }
    let mut runs = state.runs[..state.unfinished as usize].iter();
    let ahead = runs.find(|run| run.held(task, now));
    ahead.map_or(u64::MAX, |run| run.released(task))
}
