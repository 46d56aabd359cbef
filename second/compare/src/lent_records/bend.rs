//! Changes that no call makes, though many leave a record sound.

use super::early;
use crate::random::Random;
use second::limits::{CLOCK, CORES, RUNS};
use second::record::{Record, Run};
use second::task::Task;

const BENDS: [fn(&mut Random, &mut Record); 13] = [
    lighten,
    shift_share,
    shift_count,
    move_place,
    set_clock,
    set_last,
    move_run,
    hold_run,
    hold_run,
    fill_runs,
    fill_runs,
    swap_tasks,
    more_cores,
];

pub fn bend(random: &mut Random, record: &mut Record) {
    random.pick(&BENDS)(random, record);
}

fn task(random: &mut Random, record: &Record) -> usize {
    random.below(record.count) as usize
}

/// Makes fixed tasks cost less, so that their cores have room.
fn lighten(random: &mut Random, record: &mut Record) {
    let count = record.count as usize;
    for task in &mut record.tasks[..count] {
        let part = random.below(task.cost / 4 + 1);
        let units = part * (record.common / task.period);
        if let (false, Some(core)) = (task.moves(), task.first_core()) {
            task.cost -= part;
            task.weight -= units;
            task.shares[core] -= units;
        }
    }
}

/// Moves part of a task's share to another core; its sum stays.
fn shift_share(random: &mut Random, record: &mut Record) {
    let task = task(random, record);
    shift(random, &mut record.tasks[task].shares);
}

/// Moves part of a task's turn count to another core; its sum stays.
fn shift_count(random: &mut Random, record: &mut Record) {
    let task = task(random, record);
    shift(random, &mut record.states[task].counts);
}

/// Takes from a number that is not 0 and gives to any.
fn shift(random: &mut Random, row: &mut [u64; CORES]) {
    let given: Vec<usize> = (0..CORES).filter(|&core| row[core] > 0).collect();
    if given.is_empty() {
        return;
    }
    let (from, to) = (random.pick(&given), random.place(CORES));
    let any = random.between(1, row[from]);
    let part = random.pick(&[1, row[from], any]);
    row[from] -= part;
    row[to] += part;
}

/// Sets a task's place in its cycle, with a count to match.
fn move_place(random: &mut Random, record: &mut Record) {
    let task = task(random, record);
    let weight = record.tasks[task].weight;
    let state = &mut record.states[task];
    state.counts = [0; CORES];
    let any = random.below(weight);
    state.place = random.pick(&[0, weight - 1, weight, any]);
    state.counts[random.place(CORES)] = state.place;
    shift(random, &mut state.counts);
}

fn set_clock(random: &mut Random, record: &mut Record) {
    let any = random.below(CLOCK);
    record.clock = random.pick(&[0, CLOCK, CLOCK - 1, any]);
}

/// A last release at either end of the clock, also above the stored clock.
fn set_last(random: &mut Random, record: &mut Record) {
    let task = task(random, record);
    let early = early::last_release(random, record.clock, &record.tasks[task]);
    record.states[task].had = 1;
    record.states[task].last = random.pick(&[0, CLOCK, CLOCK - 1, record.clock, early, early]);
}

/// Another core or deadline for a stored run.
fn move_run(random: &mut Random, record: &mut Record) {
    let task = task(random, record);
    let latest = CLOCK + record.tasks[task].period;
    let (cores, any) = (record.cores, random.below(latest));
    let state = &mut record.states[task];
    if state.unfinished > 0 {
        let run = &mut state.runs[random.below(state.unfinished) as usize];
        match random.below(2) {
            0 => run.core = random.between(1, cores),
            _ => run.deadline = random.pick(&[0, latest, latest - 1, any]),
        }
    }
}

/// An oldest run that is held until about the clock.
fn hold_run(random: &mut Random, record: &mut Record) {
    let place = task(random, record);
    let (task, state) = (&record.tasks[place], &mut record.states[place]);
    if state.unfinished == 0 {
        state.runs[0].core = first_core(task);
        state.unfinished = 1;
    }
    state.runs[0].deadline = early::deadline(random, record.clock, task);
}

/// Eight unfinished runs on one core of the task, of any deadlines or of some around the clock, and a last release.
fn fill_runs(random: &mut Random, record: &mut Record) {
    let place = task(random, record);
    let (task, state) = (&record.tasks[place], &mut record.states[place]);
    for run in &mut state.runs {
        let any = random.below(CLOCK);
        let early = early::deadline(random, record.clock, task);
        *run = Run {
            core: first_core(task),
            deadline: random.pick(&[any, early, early]),
        };
    }
    state.unfinished = RUNS as u64;
    state.had = 1;
    state.last = early::last_release(random, record.clock, task);
}

/// The first core that a task has a share on, from 1.
fn first_core(task: &Task) -> u64 {
    task.first_core().map_or(1, |core| core as u64 + 1)
}

/// The order of the tasks is no part of soundness.
fn swap_tasks(random: &mut Random, record: &mut Record) {
    let (one, other) = (task(random, record), task(random, record));
    record.tasks.swap(one, other);
    record.states.swap(one, other);
}

fn more_cores(random: &mut Random, record: &mut Record) {
    record.cores = random.between(record.cores, CORES as u64);
}
