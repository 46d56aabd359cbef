//! Which core a run goes to.

use crate::limits::CORES;
use crate::task::Task;

/// Takes one turn: answers the run's core (from 0) and moves the counts and the place on.
pub fn step(task: &Task, counts: &mut [u64; CORES], place: &mut u64) -> usize {
    let core = next_core(task, counts, *place);
    counts[core] += 1;
    *place += 1;
    if *place == task.weight {
        *counts = [0; CORES];
        *place = 0;
    }
    core
}

/// The open core with the least due place, the lowest at a tie.
fn next_core(task: &Task, counts: &[u64; CORES], place: u64) -> usize {
    let mut best = (u64::MAX, 0);
    for (core, (&share, &count)) in task.shares.iter().zip(counts).enumerate() {
        if share > 0 && count * task.weight < share * (place + 1) {
            let due = ((count + 1) * task.weight).div_ceil(share);
            if due < best.0 {
                best = (due, core);
            }
        }
    }
    best.1
}
