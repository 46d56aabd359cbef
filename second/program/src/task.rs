//! One planned task and where its shares lie.

use crate::limits::CORES;

/// Cost and period count ticks; weight and shares count parts of 1/L core.
#[derive(Clone, Copy, Debug, Default, PartialEq, Eq)]
pub struct Task {
    pub cost: u64,
    pub period: u64,
    pub weight: u64,
    pub shares: [u64; CORES],
}

impl Task {
    /// The lowest core (from 0) with a share.
    pub fn first_core(&self) -> Option<usize> {
        self.shares.iter().position(|&share| share > 0)
    }

    /// Whether more than one core has a share.
    pub fn moves(&self) -> bool {
        self.shares.iter().filter(|&&share| share > 0).count() > 1
    }
}
