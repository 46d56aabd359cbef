//! Any calls: early runs come in every place, and the rule holds in each.
#![forbid(unsafe_code)]

mod common;

use common::{table, Random};
use second::choice::Choice;
use second::record::Record;

/// The deadline of a release by the rule's own words, where it is not refused.
fn due(record: &Record, place: usize, time: u64) -> u64 {
    let (period, state) = (record.tasks[place].period, &record.states[place]);
    if state.had == 1 && time < state.last + period {
        return state.last + period + period;
    }
    time + period
}

/// Whether a deadline is that of a run that is released after the clock.
fn held(record: &Record, place: usize, deadline: u64) -> bool {
    deadline > record.clock + record.tasks[place].period
}

/// Releases any task, and says whether its run is held.
fn release(random: &mut Random, record: &mut Record, last: &mut [u64]) -> bool {
    let time = record.clock + random.below(3);
    let place = random.below(record.count) as usize;
    let due = due(record, place, time);
    match record.release(place as u64 + 1, time) {
        Ok((_, deadline)) => {
            assert_eq!((deadline, record.clock), (due, time));
            assert!(last[place] + record.tasks[place].period <= deadline);
            last[place] = deadline;
            held(record, place, deadline)
        }
        Err(no) => {
            assert_eq!((no, record.states[place].unfinished), (10, 8));
            false
        }
    }
}

/// No core chooses a held run, and no finish ends one; answers how many are their task's oldest.
fn wait(record: &Record) -> u32 {
    let mut probe = record.clone();
    for core in 1..=record.cores {
        match probe.look(core, record.clock).unwrap() {
            Choice::Idle => {}
            Choice::Fixed { task, deadline } | Choice::Mover { task, deadline, .. } => {
                assert!(!held(record, task as usize - 1, deadline));
            }
        }
    }
    let mut waiting = 0;
    for place in 0..record.count as usize {
        let state = &record.states[place];
        let wait = state.unfinished > 0 && held(record, place, state.runs[0].deadline);
        let refused = state.unfinished == 0 || wait;
        let answer = probe.finish(place as u64 + 1, record.clock);
        assert_eq!(answer.err(), refused.then_some(11));
        waiting += u32::from(wait);
    }
    waiting
}

/// Release times of a task lie a period apart, 9 is never given, and what is held waits.
#[test]
fn any_calls() {
    let mut random = Random(5);
    let (mut early, mut waiting) = (0, 0);
    for _ in 0..200 {
        let (cores, table) = table(&mut random, 30);
        let mut record = Record::fresh(cores, &table).unwrap();
        let mut last = vec![0; record.count as usize];
        for _ in 0..300 {
            early += u32::from(release(&mut random, &mut record, &mut last));
            waiting += wait(&record);
            let _ = record.finish(1 + random.below(record.count), record.clock);
            assert!(record.sound());
        }
    }
    assert!(early > 5_000 && waiting > 5_000, "{early} {waiting}");
}
