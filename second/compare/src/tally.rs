//! What was asked and met, kind by kind.

use crate::batch::Batch;
use std::time::Duration;

/// Refusal numbers end here.
pub const REFUSALS: usize = 27;

#[derive(Clone, Copy, Default)]
pub struct Tally {
    /// Batches begun, which number the batches.
    pub batches: u64,
    pub cases: u64,
    /// How often each refusal was met; in place 0, how often none was.
    pub met: [u64; REFUSALS + 1],
    pub spent: Duration,
}

impl Tally {
    /// Counts in a batch that was answered alike.
    pub fn add(&mut self, batch: &Batch) {
        self.cases += batch.cases.len() as u64;
        for &refusal in batch.cases.iter().flat_map(|case| &case.met) {
            self.met[refusal as usize] += 1;
        }
    }
}
