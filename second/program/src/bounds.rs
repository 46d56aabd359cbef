//! Lateness bounds, in ticks.

use crate::limits::CORES;
use crate::task::Task;

/// The movers of one core: lower is the one that has it as first core.
#[derive(Clone, Copy, Default)]
struct Movers {
    upper: Option<usize>,
    lower: Option<usize>,
}

/// The bound of each task; the shares must obey the rules of a sound record.
pub fn late(common: u64, tasks: &[Task]) -> Vec<i64> {
    let movers = movers(tasks);
    let mut late = vec![0; tasks.len()];
    // An upper mover's first core is a lower one, so its bound stands before it is used.
    for (core, here) in movers.iter().enumerate() {
        if let Some(task) = here.lower {
            late[task] = mover(common, tasks, &late, core, task, here.upper);
        }
    }
    for (index, task) in tasks.iter().enumerate() {
        if let (false, Some(core)) = (task.moves(), task.first_core()) {
            late[index] = fixed(common, tasks, &late, core, movers[core]);
        }
    }
    late
}

/// Who moves over each core.
fn movers(tasks: &[Task]) -> [Movers; CORES] {
    let mut movers = [Movers::default(); CORES];
    for (index, task) in tasks.iter().enumerate().filter(|(_, task)| task.moves()) {
        let first = task.first_core();
        for (core, &share) in task.shares.iter().enumerate() {
            if Some(core) == first {
                movers[core].lower = Some(index);
            } else if share > 0 {
                movers[core].upper = Some(index);
            }
        }
    }
    movers
}

/// A mover's bound from the upper mover of its first core.
fn mover(
    common: u64,
    tasks: &[Task],
    late: &[i64],
    core: usize,
    task: usize,
    upper: Option<usize>,
) -> i64 {
    let (cost, period) = (tasks[task].cost as i64, tasks[task].period as i64);
    let Some(upper) = upper else {
        return cost - period;
    };
    let common = common as i64;
    let work = demand(common, &tasks[upper], late[upper], core) + common * cost;
    divide_up(work, common - tasks[upper].shares[core] as i64) - period
}

/// A fixed task's bound from all movers of its core.
fn fixed(common: u64, tasks: &[Task], late: &[i64], core: usize, movers: Movers) -> i64 {
    let common = common as i64;
    let (mut work, mut rest) = (0, common);
    for index in [movers.upper, movers.lower].into_iter().flatten() {
        work += demand(common, &tasks[index], late[index], core);
        rest -= tasks[index].shares[core] as i64;
    }
    divide_up(work, rest)
}

/// What a mover can ask of a core beyond its share: s × (D + 2T) + L × 2C.
fn demand(common: i64, mover: &Task, late: i64, core: usize) -> i64 {
    let share = mover.shares[core] as i64;
    share * (late + 2 * mover.period as i64) + common * 2 * mover.cost as i64
}

/// Division rounded up of a number that is not negative.
fn divide_up(number: i64, by: i64) -> i64 {
    (number + by - 1) / by
}
