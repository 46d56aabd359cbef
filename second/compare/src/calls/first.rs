//! A sequence's first calls: a look that sets the clock, and often a row of releases of one task at that time.

use super::call::{Call, Name};
use super::pace::Pace;
use crate::random::Random;
use second::limits::{CLOCK, RUNS};
use second::record::Record;

pub fn calls(random: &mut Random, record: &Record, pace: &Pace) -> Vec<Call> {
    let task = pace.favourite(record);
    let row = random.pick(&[0, 0, 2, 8, 9, 9, 10]);
    let time = start(random, record.tasks[task as usize - 1].period, row);
    let look = Call {
        name: Name::Look,
        number: 1,
        time,
    };
    let release = Call {
        name: Name::Release,
        number: task,
        time,
    };
    [vec![look], vec![release; row as usize]].concat()
}

/// At 0, anywhere, not far from the clock's limit, or so that the last runs of a row are held until about the limit.
fn start(random: &mut Random, period: u64, row: u64) -> u64 {
    let taken = row.min(RUNS as u64);
    let periods = random.between(taken.saturating_sub(2), taken).max(1);
    match random.below(8) {
        0 => CLOCK - random.below(3_000_000),
        1 => CLOCK - period * periods + random.pick(&[0, 1, 1, 2]) - 1,
        2 => random.below(CLOCK),
        _ => 0,
    }
}
