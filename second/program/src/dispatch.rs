//! The dispatcher's three calls on a record.

use crate::choice::{choice, Choice};
use crate::limits::{CLOCK, RUNS};
use crate::record::{Record, Run};
use crate::refusal;
use crate::turn;

impl Record {
    /// Takes a new run, held where it comes early, and answers its core and deadline.
    pub fn release(&mut self, task: u64, time: u64) -> Result<(u64, u64), u32> {
        self.check_sound()?;
        self.release_sound(task, time)
    }

    /// The same on a record that is known to be sound.
    pub(crate) fn release_sound(&mut self, task: u64, time: u64) -> Result<(u64, u64), u32> {
        let index = self.task_index(task)?;
        self.check_time(time)?;
        let (task, state) = (&self.tasks[index], &mut self.states[index]);
        let released = state.release_time(task, time);
        if released > CLOCK {
            return Err(refusal::TIME_OVER);
        }
        if state.unfinished == RUNS as u64 {
            return Err(refusal::TOO_MANY_RUNS);
        }
        let core = turn::step(task, &mut state.counts, &mut state.place) as u64 + 1;
        let deadline = released + task.due_after();
        state.runs[state.unfinished as usize] = Run { core, deadline };
        state.unfinished += 1;
        state.last = released;
        state.had = 1;
        self.clock = time;
        Ok((core, deadline))
    }

    /// Ends the task's oldest run, unless it is held, and answers the time less its deadline.
    pub fn finish(&mut self, task: u64, time: u64) -> Result<i64, u32> {
        self.check_sound()?;
        self.finish_sound(task, time)
    }

    /// The same on a record that is known to be sound.
    pub(crate) fn finish_sound(&mut self, task: u64, time: u64) -> Result<i64, u32> {
        let index = self.task_index(task)?;
        self.check_time(time)?;
        let (task, state) = (&self.tasks[index], &mut self.states[index]);
        let oldest = state.runs[0];
        if state.unfinished == 0 || oldest.held(task, time) {
            return Err(refusal::NO_RUN);
        }
        let late = time as i64 - oldest.deadline as i64;
        state.runs.copy_within(1.., 0);
        state.runs[RUNS - 1] = Run::default();
        state.unfinished -= 1;
        self.clock = time;
        Ok(late)
    }

    /// Answers what a core should do now.
    pub fn look(&mut self, core: u64, time: u64) -> Result<Choice, u32> {
        self.check_sound()?;
        if core == 0 || core > self.cores {
            return Err(refusal::NO_SUCH_CORE);
        }
        self.check_time(time)?;
        self.clock = time;
        Ok(choice(self, core))
    }

    /// Refusal 15.
    fn check_sound(&self) -> Result<(), u32> {
        if self.sound() {
            Ok(())
        } else {
            Err(refusal::UNSOUND)
        }
    }

    /// The slot of a task, or refusal 7.
    fn task_index(&self, task: u64) -> Result<usize, u32> {
        if task == 0 || task > self.count {
            return Err(refusal::NO_SUCH_TASK);
        }
        Ok(task as usize - 1)
    }

    /// Refusals 12 and 8.
    fn check_time(&self, time: u64) -> Result<(), u32> {
        if time > CLOCK {
            return Err(refusal::TIME_OVER);
        }
        if time < self.clock {
            return Err(refusal::TIME_PAST);
        }
        Ok(())
    }
}
