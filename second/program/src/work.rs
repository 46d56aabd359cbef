//! What a rehearsal knows of a task beside its record.

use crate::limits::RUNS;

/// The accepted runs so far, the length of each unfinished one, and the ticks that the oldest has had.
#[derive(Clone, Copy, Default)]
pub(crate) struct Work {
    accepted: u64,
    unfinished: usize,
    lengths: [u64; RUNS],
    /// Only a task's oldest run can be chosen, so none behind it has had a tick.
    pub(crate) had: u64,
}

impl Work {
    /// Counts in an accepted run.
    pub(crate) fn accept(&mut self, length: u64) {
        self.lengths[self.unfinished] = length;
        self.unfinished += 1;
        self.accepted += 1;
    }

    /// Drops the oldest run.
    pub(crate) fn finish(&mut self) {
        self.lengths.copy_within(1.., 0);
        self.unfinished -= 1;
        self.had = 0;
    }

    /// The number of the oldest run.
    pub(crate) fn oldest(&self) -> u64 {
        self.accepted - self.unfinished as u64 + 1
    }

    /// The ticks that the oldest run still needs.
    pub(crate) fn left(&self) -> u64 {
        self.lengths[0] - self.had
    }

    /// The length of an unfinished run, the oldest's first.
    pub(crate) fn length(&self, place: usize) -> u64 {
        self.lengths[place]
    }
}
