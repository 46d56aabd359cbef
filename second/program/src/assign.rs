//! The two passes that give every task its shares.

use crate::limits::CORES;
use crate::task::Task;
use std::cmp::Reverse;

/// Fills in the shares of tasks whose weights sum to at most cores times common.
pub fn assign(cores: usize, common: u64, tasks: &mut [Task]) {
    let order = by_falling_weight(tasks);
    let mut loads = [0; CORES];
    let loads = &mut loads[..cores];
    let placed = worst_fit(common, tasks, &order, loads);
    fill(common, tasks, &order[placed..], loads);
}

/// Task places by falling weight; the stable sort keeps table order at a tie.
fn by_falling_weight(tasks: &[Task]) -> Vec<usize> {
    let mut order: Vec<usize> = (0..tasks.len()).collect();
    order.sort_by_key(|&task| Reverse(tasks[task].weight));
    order
}

/// Pass one: whole tasks to the least loaded core; answers how many went before the first misfit.
fn worst_fit(common: u64, tasks: &mut [Task], order: &[usize], loads: &mut [u64]) -> usize {
    for (placed, &task) in order.iter().enumerate() {
        let task = &mut tasks[task];
        let core = least_loaded(loads);
        if loads[core] + task.weight > common {
            return placed;
        }
        task.shares[core] = task.weight;
        loads[core] += task.weight;
    }
    order.len()
}

/// The core with the least load, the lowest at a tie.
fn least_loaded(loads: &[u64]) -> usize {
    let mut least = 0;
    for core in 1..loads.len() {
        if loads[core] < loads[least] {
            least = core;
        }
    }
    least
}

/// Pass two: cores from the first on take what still fits, and a full one is left for good.
fn fill(common: u64, tasks: &mut [Task], order: &[usize], loads: &mut [u64]) {
    let mut core = 0;
    for &task in order {
        let task = &mut tasks[task];
        let mut need = task.weight;
        while need > 0 {
            let part = need.min(common - loads[core]);
            task.shares[core] = part;
            loads[core] += part;
            need -= part;
            if loads[core] == common {
                core += 1;
            }
        }
    }
}
