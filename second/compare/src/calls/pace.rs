//! How a sequence of calls goes.

use crate::random::Random;
use second::record::Record;

/// How often calls are odd, what is called most, how fast time passes.
pub struct Pace {
    /// One call in so many is odd.
    pub odd: u64,
    /// Out of ten calls, those around the instant until which a run is held.
    pub around: u64,
    /// Out of ten others, those that finish and those that look; what is left releases.
    pub finishes: u64,
    pub looks: u64,
    /// Out of ten releases, those that come early, and which task's they mostly are.
    pub early: u64,
    favourite: u64,
    /// Ticks that may pass between two calls.
    pub step: u64,
}

impl Pace {
    /// A pace for tasks with this common period.
    pub fn new(random: &mut Random, common: u64) -> Self {
        Pace {
            odd: random.pick(&[3, 10, 30, 1_000]),
            around: random.pick(&[2, 5]),
            finishes: random.pick(&[1, 3, 4]),
            looks: random.pick(&[1, 3, 5]),
            early: random.pick(&[0, 3, 9]),
            favourite: random.number(),
            step: random.pick(&[0, 1, 3, common / 8, common, 1_000_000_000]),
        }
    }

    /// The task, from 1, that mostly comes early.
    pub fn favourite(&self, record: &Record) -> u64 {
        1 + self.favourite % record.count
    }
}
