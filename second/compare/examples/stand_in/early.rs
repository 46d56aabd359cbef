//! Faults in how early runs are held.

use second::choice::Choice;
use second::limits::CLOCK;
use second::record::Record;

/// A release (1), a finish (2) or a look (3) on a sound record.
pub struct Asked {
    pub record: Record,
    pub call: u64,
    pub number: u64,
    pub time: u64,
}

impl Asked {
    /// The named fault's refusal in the place of the right one; 0 is none.
    pub fn refused(&self, fault: &str, right: u32) -> u32 {
        let place = self.number.wrapping_sub(1) as usize;
        if self.call == 3 || place >= self.record.count as usize {
            return right;
        }
        let full = self.record.states[place].unfinished == 8;
        let held = self.record.states[place].unfinished > 0;
        let within = self.time <= CLOCK;
        match (fault, self.call, right) {
            ("early_refused", 1, 0) if self.early(place) => 9,
            ("held_beyond_the_limit", 1, 12) if within => 0,
            ("ten_before_twelve", 1, 12) if within && full => 10,
            ("ended_while_held", 2, 11) if held => 0,
            ("ended_a_tick_late", 2, 0) if self.now(place) => 11,
            _ => right,
        }
    }

    /// Whether a release is early.
    fn early(&self, place: usize) -> bool {
        let (task, state) = (&self.record.tasks[place], &self.record.states[place]);
        state.had == 1 && self.time < state.last + task.period
    }

    /// Whether a task's oldest run is held until the call's time.
    fn now(&self, place: usize) -> bool {
        let (task, state) = (&self.record.tasks[place], &self.record.states[place]);
        let released = state.runs[0].deadline.saturating_sub(task.period);
        released > self.record.clock && released == self.time
    }

    /// What a core would choose if nothing were held, as at the clock's limit.
    pub fn unheld(&self) -> Option<Choice> {
        self.record.clone().look(self.number, CLOCK).ok()
    }
}
