//! Whether a record obeys every rule. Each sum is taken only of numbers already in range.

use crate::limits::{CLOCK, COMMON, CORES, PERIOD, RUNS, TASKS};
use crate::plan::common_multiple;
use crate::record::{Record, Run, State};
use crate::task::Task;

/// What the tasks make of one core.
#[derive(Clone, Copy, Default)]
struct Core {
    load: u64,
    movers: u64,
    firsts: u64,
    heaviest_mover: u64,
    heaviest_fixed: u64,
}

impl Record {
    /// Tests the box, the tasks in use, the tasks together, the unused slots; no number makes this fail.
    pub fn sound(&self) -> bool {
        if !sound_box(self) {
            return false;
        }
        let count = self.count as usize;
        let (tasks, unused_tasks) = self.tasks.split_at(count);
        let (states, unused_states) = self.states.split_at(count);
        sound_periods(self.common, tasks)
            && tasks.iter().all(|task| sound_task(self, task))
            && sound_cores(self.common, tasks)
            && tasks.iter().zip(states).all(|(t, s)| sound_state(t, s))
            && unused_tasks.iter().all(|task| *task == Task::default())
            && unused_states.iter().all(|state| *state == State::default())
    }
}

/// The box's own numbers.
fn sound_box(record: &Record) -> bool {
    (1..=CORES as u64).contains(&record.cores)
        && (1..=TASKS as u64).contains(&record.count)
        && (1..=COMMON).contains(&record.common)
        && record.clock <= CLOCK
}

/// The common period is that of the tasks.
fn sound_periods(common: u64, tasks: &[Task]) -> bool {
    let mut multiple = 1;
    for task in tasks {
        if task.period == 0 || task.period > PERIOD {
            return false;
        }
        multiple = common_multiple(multiple, task.period);
        // It only grows, so above the stored one it can never equal it.
        if multiple > common {
            return false;
        }
    }
    multiple == common
}

/// Cost, weight and shares of a task whose period divides the common one.
fn sound_task(record: &Record, task: &Task) -> bool {
    let (own, others) = task.shares.split_at(record.cores as usize);
    (1..=task.period).contains(&task.cost)
        && task.weight == task.cost * (record.common / task.period)
        && sums_to(own, task.weight)
        && others.iter().all(|&share| share == 0)
}

/// Whether numbers of any size sum to a number that is small.
fn sums_to(numbers: &[u64], sum: u64) -> bool {
    let mut rest = sum;
    for &number in numbers {
        if number > rest {
            return false;
        }
        rest -= number;
    }
    rest == 0
}

/// Load and movers of every core.
fn sound_cores(common: u64, tasks: &[Task]) -> bool {
    let mut cores = [Core::default(); CORES];
    for task in tasks {
        let (moves, first) = (task.moves(), task.first_core());
        for (core, (here, &share)) in cores.iter_mut().zip(&task.shares).enumerate() {
            if share > 0 {
                here.add(task.weight, share, moves, first == Some(core));
            }
        }
    }
    cores.iter().all(|core| core.sound(common))
}

impl Core {
    /// Counts in a task with a share here.
    fn add(&mut self, weight: u64, share: u64, moves: bool, first: bool) {
        self.load += share;
        if moves {
            self.movers += 1;
            self.firsts += u64::from(first);
            self.heaviest_mover = self.heaviest_mover.max(weight);
        } else {
            self.heaviest_fixed = self.heaviest_fixed.max(weight);
        }
    }

    /// At most full, at most two movers, and a fixed task as heavy as each mover.
    fn sound(&self, common: u64) -> bool {
        self.load <= common
            && self.movers <= 2
            && (self.movers < 2 || self.firsts == 1)
            && self.heaviest_fixed >= self.heaviest_mover
    }
}

/// Turns, last release and runs of a sound task.
fn sound_state(task: &Task, state: &State) -> bool {
    state.place < task.weight
        && sums_to(&state.counts, state.place)
        && state.had <= 1
        && state.last <= CLOCK
        && (state.had == 1 || state.last == 0)
        && sound_runs(task, state)
}

/// Runs in use lie on cores of the task, the others are 0.
fn sound_runs(task: &Task, state: &State) -> bool {
    if state.unfinished > RUNS as u64 {
        return false;
    }
    let (used, unused) = state.runs.split_at(state.unfinished as usize);
    used.iter().all(|run| sound_run(task, run)) && unused.iter().all(|run| *run == Run::default())
}

/// The run's core has a share of its task, and its deadline is one a release can give.
fn sound_run(task: &Task, run: &Run) -> bool {
    (1..=CORES as u64).contains(&run.core)
        && task.shares[run.core as usize - 1] > 0
        && run.deadline <= CLOCK + task.due_after()
}
