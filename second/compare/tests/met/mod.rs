//! What is so of a call where early runs are concerned, by the rules' own words.

use compare::calls::call::{Call, Name};
use second::limits::CLOCK;
use second::record::Record;
use std::collections::BTreeMap;

/// How often each was met.
pub type Met = BTreeMap<&'static str, u64>;

/// Counts in what is so of a call, made on a sound record, and its refusal or 0.
pub fn count(met: &mut Met, record: &Record, call: &Call, refused: u32) {
    let known = (1..=record.count).contains(&call.number) && call.time >= record.clock;
    let place = call.number.wrapping_sub(1) as usize;
    let traits = match call.name {
        Name::Release if known && record.states[place].had == 1 => {
            released(record, place, call.time, refused)
        }
        Name::Finish if known && record.states[place].unfinished > 0 => {
            finished(record, place, call.time, refused)
        }
        Name::Look if refused == 0 => looked(record, call),
        _ => Vec::new(),
    };
    for (name, _) in traits.into_iter().filter(|(_, so)| *so) {
        *met.entry(name).or_default() += 1;
    }
}

/// Of a release after another.
fn released(record: &Record, place: usize, time: u64, refused: u32) -> Vec<(&'static str, bool)> {
    let state = &record.states[place];
    let due = state.last + record.tasks[place].period;
    let taken = refused == 0 && time < due;
    let over = refused == 12 && time <= CLOCK;
    vec![
        ("early release", taken),
        ("a tick early", taken && time + 1 == due),
        ("on time", refused == 0 && time == due),
        ("at the last release", taken && time == state.last),
        ("before the last release", taken && time < state.last),
        ("the eighth is early", taken && state.unfinished == 7),
        ("the ninth is early", refused == 10 && time < due),
        ("held until the limit", taken && due == CLOCK),
        ("held beyond the limit", over),
        ("held a tick beyond", over && due == CLOCK + 1),
        ("12 before 10", over && state.unfinished == 8),
    ]
}

/// Of a finish of a task with runs.
fn finished(record: &Record, place: usize, time: u64, refused: u32) -> Vec<(&'static str, bool)> {
    let (period, state) = (record.tasks[place].period, &record.states[place]);
    let deadline = state.runs[0].deadline;
    // Whether it was held until now, as the clock tells.
    let waits = deadline > record.clock + period;
    let behind = state.runs[..state.unfinished as usize].iter();
    let ready = behind.skip(1).any(|run| run.deadline <= time + period);
    vec![
        ("11 of a held run", refused == 11),
        ("a finish a tick before", deadline == time + period + 1),
        ("a finish at it", waits && deadline == time + period),
        (
            "a finish a tick after",
            waits && deadline + 1 == time + period,
        ),
        ("a ready run behind", refused == 11 && ready),
        ("a finish below the period", deadline < period),
    ]
}

/// Of a look that is answered.
fn looked(record: &Record, call: &Call) -> Vec<(&'static str, bool)> {
    let mut traits = Vec::new();
    for (task, state) in record.tasks.iter().zip(&record.states) {
        let run = state.runs[0];
        if state.unfinished > 0 && run.core == call.number {
            let instant = call.time + task.period;
            let waits = run.deadline > record.clock + task.period;
            traits.extend([
                ("a look a tick before", run.deadline == instant + 1),
                ("a look at it", waits && run.deadline == instant),
                ("a look a tick after", waits && run.deadline + 1 == instant),
                ("a look below the period", run.deadline < task.period),
            ]);
        }
    }
    traits
}

/// Each of these was met so often at least.
pub fn all_met(met: &Met, often: u64, must: &[&str]) {
    for name in must {
        let times = met.get(name).copied().unwrap_or(0);
        assert!(times >= often, "{name}: {times}; {met:#?}");
    }
}
