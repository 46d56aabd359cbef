//! Records made by hand: every sum holds, and whether loads and movers obey their rules is a matter of luck.

use crate::random::Random;
use second::plan::Plan;
use second::record::Record;
use second::task::Task;

/// A fixed task on each core, or nearly, then a few movers anywhere.
pub fn record(random: &mut Random) -> Record {
    let cores = random.between(3, 6);
    let common = random.between(12, 60);
    let fixed = random.between(2, common / 2);
    let mut tasks = Vec::new();
    for core in 0..cores {
        // A core without a fixed task can have no mover.
        if core == 0 || !random.one_in(12) {
            let weight = fixed + random.below(3);
            tasks.push(task(common, &[(core as usize, weight)]));
        }
    }
    let movers = match random.below(2) {
        0 => crowd(random, cores),
        _ => scattered(random, cores, fixed),
    };
    tasks.extend(movers.iter().map(|shares| task(common, shares)));
    Record::of(&Plan {
        cores,
        common,
        tasks,
    })
}

/// Two movers or three on one core, each with another core of its own before or after it.
fn crowd(random: &mut Random, cores: u64) -> Vec<Vec<(usize, u64)>> {
    // On the last core but one, one mover has its other core after it and two have theirs before.
    let any = random.below(cores);
    let core = random.pick(&[any, cores - 2]);
    let other = |step| ((core + step) % cores) as usize;
    let movers = random.between(2, 3).min(cores - 1);
    (1..=movers)
        .map(|step| vec![(core as usize, 1), (other(step), 1)])
        .collect()
}

/// Movers on any cores.
fn scattered(random: &mut Random, cores: u64, fixed: u64) -> Vec<Vec<(usize, u64)>> {
    (0..random.between(1, 4))
        .map(|_| mover(random, cores, fixed))
        .collect()
}

/// A share on two cores or three, together about as heavy as a fixed task.
fn mover(random: &mut Random, cores: u64, fixed: u64) -> Vec<(usize, u64)> {
    let number = random.pick(&[2, 2, 3]);
    let most = (fixed / number).max(1) + random.below(2);
    (0..number)
        .map(|_| (random.below(cores) as usize, random.between(1, most)))
        .collect()
}

/// A task with the common period and these shares; two on one core are one.
fn task(common: u64, shares: &[(usize, u64)]) -> Task {
    let mut task = Task {
        period: common,
        ..Task::default()
    };
    for &(core, share) in shares {
        task.shares[core] += share;
        task.weight += share;
    }
    task.cost = task.weight;
    task
}
