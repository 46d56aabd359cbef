//! Soundness once more, rule by rule in wide numbers, against records with a few numbers changed.
#![forbid(unsafe_code)]

mod common;

use common::{table, Random};
use second::limits::CLOCK;
use second::record::Record;
use second::task::Task;

/// A number widened so that no sum or product here can overflow.
fn wide(number: u64) -> u128 {
    u128::from(number)
}

/// Whether every number past those in use is 0.
fn rest_is_zero(record: &Record) -> bool {
    let mut copy = record.clone();
    let used = 4 + record.count as usize * 55;
    let slots = copy.numbers().into_iter().skip(used);
    let states = &record.states[..record.count as usize];
    slots.into_iter().all(|number| *number == 0)
        && states.iter().all(|state| {
            let unused = state.runs.iter().skip(state.unfinished as usize);
            unused.into_iter().all(|r| r.core == 0 && r.deadline == 0)
                && (state.had == 1 || state.last == 0)
        })
}

/// Ranges of the box and the tasks, and how weight, shares and turns hang together.
fn ranges(record: &Record) -> bool {
    let box_ok = (1..=16).contains(&record.cores)
        && (1..=64).contains(&record.count)
        && (1..=1_000_000).contains(&record.common)
        && record.clock <= CLOCK;
    box_ok
        && (0..record.count as usize).all(|index| {
            let (task, state) = (&record.tasks[index], &record.states[index]);
            let shares: u128 = task.shares.iter().map(|&s| wide(s)).sum();
            let counts: u128 = state.counts.iter().map(|&c| wide(c)).sum();
            (1..=1_000_000).contains(&task.period)
                && (1..=task.period).contains(&task.cost)
                && wide(task.weight) * wide(task.period) == wide(task.cost) * wide(record.common)
                && shares == wide(task.weight)
                && counts == wide(state.place)
                && state.place < task.weight
                && state.last <= CLOCK
                && state.had <= 1
                && state.unfinished <= 8
        })
}

/// Whether the stored common period is the least number that every period divides.
fn least_common(record: &Record) -> bool {
    let periods = record.tasks[..record.count as usize].iter();
    let common = |number: u64| periods.clone().all(|t| number.is_multiple_of(t.period));
    common(record.common) && (1..record.common).all(|number| !common(number))
}

/// The rules of one core, counted from 1.
fn core_rules(record: &Record, core: u64) -> bool {
    let at = core as usize - 1;
    let tasks = record.tasks[..record.count as usize].iter();
    let here: Vec<_> = tasks.filter(|task| task.shares[at] > 0).collect();
    let load: u128 = here.iter().map(|task| wide(task.shares[at])).sum();
    let (movers, fixed): (Vec<&Task>, Vec<&Task>) = here
        .into_iter()
        .partition(|task| task.shares.iter().filter(|&&s| s != 0).count() != 1);
    let firsts = movers
        .iter()
        .filter(|task| task.shares[..at].iter().all(|&s| s == 0))
        .count();
    load <= wide(if core <= record.cores {
        record.common
    } else {
        0
    }) && (movers.len() <= 1 || movers.len() == 2 && firsts == 1)
        && movers
            .iter()
            .all(|mover| fixed.iter().any(|task| task.weight >= mover.weight))
}

/// Every run in use has a core of its task and a deadline in range.
fn runs(record: &Record) -> bool {
    (0..record.count as usize).all(|index| {
        let (task, state) = (&record.tasks[index], &record.states[index]);
        let used = &state.runs[..state.unfinished as usize];
        used.iter().all(|run| {
            let share = (1..=16).find(|&core| core == run.core);
            share.is_some_and(|core| task.shares[core as usize - 1] > 0)
                && wide(run.deadline) <= wide(CLOCK) + wide(task.period)
        })
    })
}

fn literal(record: &Record) -> bool {
    ranges(record)
        && least_common(record)
        && rest_is_zero(record)
        && (1..=16).all(|core| core_rules(record, core))
        && runs(record)
}

/// Moves a part of one share elsewhere, so that sums often still hold.
fn shift_share(random: &mut Random, record: &mut Record) {
    let task = &mut record.tasks[random.below(record.count) as usize];
    let (from, to) = (random.below(16) as usize, random.below(16) as usize);
    let part = random.below(task.shares[from] + 1);
    task.shares[from] -= part;
    task.shares[to] += part;
}

/// A record with some runs taken and a few numbers changed.
fn changed(random: &mut Random) -> Record {
    let (cores, table) = table(random, 30);
    let mut record = Record::fresh(cores, &table).unwrap();
    for time in 0..random.below(60) {
        let _ = record.release(1 + random.below(record.count), time);
        let _ = record.finish(1 + random.below(record.count), time);
    }
    for _ in 0..random.below(3) {
        shift_share(random, &mut record);
    }
    let used = 4 + record.count * 55;
    for _ in 0..random.below(3) {
        let mut all = record.numbers();
        let number = &mut *all[random.below(used) as usize];
        *number = match random.below(4) {
            0 => number.wrapping_add(1),
            1 => number.wrapping_sub(1),
            2 => random.below(20),
            _ => random.next() >> random.below(64),
        };
    }
    record
}

#[test]
fn both_agree() {
    let mut random = Random(4);
    let mut sound = 0;
    for _ in 0..8_000 {
        let record = changed(&mut random);
        assert_eq!(record.sound(), literal(&record), "{record:?}");
        sound += u32::from(record.sound());
    }
    assert!((1_600..6_400).contains(&sound), "{sound} were sound");
}
