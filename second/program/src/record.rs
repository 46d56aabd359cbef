//! The dispatcher's record of a box: its numbers, and the record of a new plan.

use crate::limits::{CORES, RUNS, TASKS};
use crate::plan::{plan, Plan};
use crate::refusal::Refusal;
use crate::task::Task;

/// An unfinished run: its core (from 1) and its deadline.
#[derive(Clone, Copy, Debug, Default, PartialEq, Eq)]
pub struct Run {
    pub core: u64,
    pub deadline: u64,
}

/// What changes about a task; `had` is 1 once it has had a release.
#[derive(Clone, Copy, Debug, Default, PartialEq, Eq)]
pub struct State {
    pub counts: [u64; CORES],
    pub place: u64,
    pub last: u64,
    pub had: u64,
    pub runs: [Run; RUNS],
    pub unfinished: u64,
}

/// A box of fixed size: slots past the number of tasks are all 0.
#[derive(Clone, Debug, PartialEq, Eq)]
pub struct Record {
    pub cores: u64,
    pub count: u64,
    pub common: u64,
    pub clock: u64,
    pub tasks: [Task; TASKS],
    pub states: [State; TASKS],
}

impl Record {
    /// Every number, those of the box and the tasks in front first.
    pub fn numbers(&mut self) -> Vec<&mut u64> {
        let mut all = vec![
            &mut self.cores,
            &mut self.count,
            &mut self.common,
            &mut self.clock,
        ];
        for (task, state) in self.tasks.iter_mut().zip(&mut self.states) {
            all.extend([&mut task.cost, &mut task.period, &mut task.weight]);
            all.extend(&mut task.shares);
            all.extend(&mut state.counts);
            all.extend([&mut state.place, &mut state.last, &mut state.had]);
            for run in &mut state.runs {
                all.extend([&mut run.core, &mut run.deadline]);
            }
            all.push(&mut state.unfinished);
        }
        all
    }

    /// The record with every number 0, which is unsound.
    pub fn empty() -> Self {
        Record {
            cores: 0,
            count: 0,
            common: 0,
            clock: 0,
            tasks: [Task::default(); TASKS],
            states: [State::default(); TASKS],
        }
    }

    /// The record of a new plan: clock 0, no runs.
    pub fn fresh(cores: u32, table: &[u32]) -> Result<Self, Refusal> {
        plan(cores, table).map(|plan| Record::of(&plan))
    }

    /// The record of a plan that has been made.
    pub fn of(plan: &Plan) -> Self {
        let mut record = Record::empty();
        record.cores = plan.cores;
        record.count = plan.tasks.len() as u64;
        record.common = plan.common;
        record.tasks[..plan.tasks.len()].copy_from_slice(&plan.tasks);
        record
    }
}
