//! Early runs: when a run is released, when it is due, and whether it is still held.

use crate::record::{Run, State};
use crate::task::Task;

impl Task {
    /// How long after its release a run is due.
    pub fn due_after(&self) -> u64 {
        self.period
    }
}

impl State {
    /// The release time of a run that comes at a time: a period after the last release, where that is later.
    pub fn release_time(&self, task: &Task, time: u64) -> u64 {
        if self.had == 0 {
            return time;
        }
        time.max(self.last + task.period)
    }
}

impl Run {
    /// The run's release time.
    pub fn released(&self, task: &Task) -> u64 {
        // No release gives a deadline below that; such a run is never held.
        self.deadline.saturating_sub(task.due_after())
    }

    /// Whether the run is held at a time: its release time lies above it.
    pub fn held(&self, task: &Task, time: u64) -> bool {
        self.released(task) > time
    }
}
