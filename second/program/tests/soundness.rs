//! Soundness: each rule broken once, what passes all the same, and that no number stops a call.
#![forbid(unsafe_code)]

mod common;

use common::Random;
use second::limits::{CLOCK, TASKS};
use second::listing::listing;
use second::plan::Plan;
use second::record::{Record, Run};
use second::task::Task;

const LIST: [u32; 12] = [5, 6, 4, 6, 2, 3, 2, 3, 2, 3, 1, 2];

/// A record in use: tasks 1, 5 and 6 have had runs, task 5 has two.
fn used() -> Record {
    let mut record = Record::fresh(4, &LIST).unwrap();
    record.release(1, 10).unwrap();
    record.release(5, 10).unwrap();
    record.release(5, 20).unwrap();
    record.release(6, 20).unwrap();
    record.finish(6, 22).unwrap();
    record
}

/// A record of tasks by weight and shares, each with period L = 10 and cost = weight.
fn made(cores: u64, tasks: &[&[(usize, u64)]]) -> Record {
    let tasks = tasks.iter().map(|shares| {
        let weight = shares.iter().map(|&(_, share)| share).sum();
        let mut task = Task {
            cost: weight,
            period: 10,
            weight,
            ..Task::default()
        };
        for &(core, share) in *shares {
            task.shares[core - 1] = share;
        }
        task
    });
    Record::of(&Plan {
        cores,
        common: 10,
        tasks: tasks.collect(),
    })
}

/// Applies a change to a record in use and says whether it is still sound.
fn stays_sound(change: fn(&mut Record)) -> bool {
    let mut record = used();
    assert!(record.sound());
    change(&mut record);
    assert_ne!(record, used());
    record.sound()
}

/// Breaks each rule of a list once, naming the place in it that passes.
fn all_unsound(changes: &[fn(&mut Record)]) {
    for (place, &change) in changes.iter().enumerate() {
        assert!(!stays_sound(change), "change {place} passes");
    }
}

#[test]
fn box_ranges() {
    all_unsound(&[
        |r| r.cores = 0,
        |r| r.cores = 17,
        |r| r.cores = u64::MAX,
        |r| r.count = 0,
        |r| r.count = 5,
        |r| r.count = 7,
        |r| r.count = 65,
        |r| r.common = 0,
        |r| r.common = 12,
        |r| r.common = 1_000_001,
        |r| r.clock = CLOCK + 1,
    ]);
    assert!(!Record::empty().sound());
    assert!(stays_sound(|r| r.cores = 5));
    assert!(stays_sound(|r| r.clock = CLOCK));
}

#[test]
fn task_numbers() {
    all_unsound(&[
        |r| r.tasks[0].cost = 0,
        |r| r.tasks[0].cost = 7,
        |r| r.tasks[0].period = 0,
        |r| r.tasks[0].period = 1_000_001,
        |r| r.tasks[0].period = u64::MAX,
        |r| r.tasks[0].weight = 6,
        |r| r.tasks[0].weight = 0,
        |r| r.tasks[0].shares[0] = 4,
        |r| r.tasks[0].shares[1] = u64::MAX,
        |r| r.tasks[4].shares[2] = 2,
    ]);
}

#[test]
fn common_period_of_the_tasks() {
    let twice = |r: &mut Record| {
        r.common *= 2;
        for task in &mut r.tasks[..6] {
            task.weight *= 2;
            task.shares = task.shares.map(|share| 2 * share);
        }
    };
    assert!(!stays_sound(twice));
}

#[test]
fn shares_on_cores() {
    assert!(made(2, &[&[(1, 6)], &[(2, 6)]]).sound());
    assert!(!made(2, &[&[(1, 6)], &[(1, 6)]]).sound(), "over full");
    assert!(!made(2, &[&[(1, 6)], &[(3, 6)]]).sound(), "no such core");
}

#[test]
fn movers_on_cores() {
    let (f1, f2, f3, f4) = (&[(1, 2)], &[(2, 2)], &[(3, 2)], &[(4, 2)]);
    let (m12, m13, m23) = (&[(1, 1), (2, 1)], &[(1, 1), (3, 1)], &[(2, 1), (3, 1)]);
    let (m14, m34) = (&[(1, 1), (4, 1)], &[(3, 1), (4, 1)]);
    assert!(made(4, &[f1, f2, f3, f4, m12, m23, m34]).sound());
    assert!(!made(4, &[f1, f2, f3, f4, m12, m13, m14]).sound(), "three");
    assert!(!made(4, &[f1, f2, f3, m12, m13]).sound(), "both first");
    assert!(!made(4, &[f1, f2, f3, m13, m23]).sound(), "none first");
    assert!(!made(4, &[f1, m12]).sound(), "no fixed task");
    assert!(!made(4, &[f1, &[(2, 1)], m12]).sound(), "fixed too light");
    assert!(
        !made(4, &[f1, &[(2, 1)], &[(2, 1)], m12]).sound(),
        "two light"
    );
}

#[test]
fn turns() {
    all_unsound(&[
        |r| r.states[4].place += 1,
        |r| r.states[4].counts[0] += 1,
        |r| {
            r.states[4].place = 4;
            r.states[4].counts[0] += 2;
        },
        |r| r.states[4].place = u64::MAX,
        |r| {
            r.states[4].counts[3] = u64::MAX;
            r.states[4].counts[4] = 1;
        },
    ]);
    assert!(stays_sound(|r| r.states[4].counts.reverse()));
    assert!(stays_sound(|r| {
        r.states[1].counts[9] = 3;
        r.states[1].place = 3;
    }));
}

#[test]
fn last_releases() {
    all_unsound(&[
        |r| r.states[0].had = 2,
        |r| r.states[0].had = 0,
        |r| r.states[0].last = CLOCK + 1,
        |r| r.states[1].last = 1,
    ]);
    assert!(stays_sound(|r| r.states[0].last = CLOCK));
    assert!(stays_sound(|r| r.states[0].last = r.clock + 1));
    assert!(stays_sound(|r| r.states[1].had = 1));
}

#[test]
fn runs() {
    all_unsound(&[
        |r| r.states[4].unfinished = 1,
        |r| r.states[4].unfinished = 3,
        |r| r.states[4].unfinished = 9,
        |r| r.states[4].unfinished = u64::MAX,
        |r| r.states[4].runs[0].core = 0,
        |r| r.states[4].runs[0].core = 4,
        |r| r.states[4].runs[0].core = 17,
        |r| r.states[4].runs[0].core = u64::MAX,
        |r| r.states[4].runs[0].deadline = CLOCK + 4,
        |r| r.states[4].runs[2].core = 1,
        |r| r.states[4].runs[7].deadline = 1,
    ]);
    assert!(stays_sound(|r| r.states[4].runs[0].deadline = CLOCK + 3));
    assert!(stays_sound(|r| r.states[4].runs[0].deadline = 0));
    assert!(stays_sound(|r| r.states[4].runs[0].core = 3));
}

#[test]
fn unused_slots() {
    all_unsound(&[
        |r| r.tasks[6].cost = 1,
        |r| r.tasks[63].period = 1,
        |r| r.tasks[6].weight = 1,
        |r| r.tasks[6].shares[15] = 1,
        |r| r.states[6].counts[15] = 1,
        |r| r.states[6].place = 1,
        |r| r.states[6].last = 1,
        |r| r.states[63].had = 1,
        |r| r.states[6].runs[0].core = 1,
        |r| r.states[6].runs[7].deadline = 1,
        |r| r.states[6].unfinished = 1,
    ]);
}

#[test]
fn refused_calls_leave_the_record() {
    let (good, mut record) = (used(), used());
    assert_eq!(record.release(0, 30), Err(7));
    assert_eq!(record.release(7, CLOCK + 1), Err(7));
    assert_eq!(record.release(1, CLOCK + 1), Err(12));
    assert_eq!(record.release(1, 21), Err(8));
    assert_eq!(record.finish(7, 30), Err(7));
    assert_eq!(record.finish(1, u64::MAX), Err(12));
    assert_eq!(record.finish(2, 21), Err(8));
    assert_eq!(record.finish(2, 22), Err(11));
    assert_eq!(record.look(0, 30), Err(13));
    assert_eq!(record.look(5, CLOCK + 1), Err(13));
    assert_eq!(record.look(4, CLOCK + 1), Err(12));
    assert_eq!(record.look(4, 21), Err(8));
    assert_eq!(record, good);
    record.states[4].runs = [Run {
        core: 1,
        deadline: 5,
    }; 8];
    record.states[4].unfinished = 8;
    assert_eq!(record.release(5, 22), Err(10));
    assert_eq!(record.release(5, 23), Err(10));
}

/// Makes every call on a record that may be spoilt, at its own clock.
fn try_calls(record: &Record) {
    let sound = record.sound();
    let time = record.clock;
    for which in 1..=TASKS as u64 + 1 {
        let mut next = record.clone();
        let refused = [
            next.release(which, time).err(),
            next.finish(which, time).err(),
            next.look(which, time).err(),
        ];
        let unsound = refused.iter().all(|&no| no == Some(15));
        assert_eq!(sound, !unsound);
        assert!(if sound { next.sound() } else { next == *record });
    }
    assert_eq!(listing(record).is_ok(), sound);
}

#[test]
fn any_numbers() {
    let values = [
        0,
        1,
        2,
        3,
        6,
        8,
        9,
        1_000_000,
        CLOCK,
        1 << 32,
        1 << 63,
        u64::MAX,
    ];
    let mut random = Random(3);
    let mut record = used();
    let places = record.numbers().len() as u64;
    let mut sound = 0;
    for round in 0..3 * places {
        let mut record = used();
        let mut all = record.numbers();
        *all[(round % places) as usize] = *random.pick(&values);
        if random.below(2) == 0 {
            // Numbers in use are few, so a second one is taken from the front.
            *all[random.below(400) as usize] = *random.pick(&values);
        }
        if record.sound() || random.below(8) == 0 {
            try_calls(&record);
        }
        sound += u32::from(record.sound());
    }
    assert!(sound > 100);
}
