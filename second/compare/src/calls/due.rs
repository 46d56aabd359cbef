//! When runs are released.

use second::record::Record;

/// The release time of a task's next run at the earliest: one that comes before it is held until then.
pub fn due(record: &Record, task: u64) -> u64 {
    let place = task as usize - 1;
    let state = &record.states[place];
    if state.had == 0 {
        return 0;
    }
    state.last + record.tasks[place].period
}

/// The release time of a task's oldest unfinished run, and its core.
pub fn oldest(record: &Record, task: u64) -> Option<(u64, u64)> {
    let place = task as usize - 1;
    let (task, state) = (&record.tasks[place], &record.states[place]);
    let run = state.runs[0];
    let released = run.deadline.saturating_sub(task.due_after());
    (state.unfinished > 0).then_some((released, run.core))
}
