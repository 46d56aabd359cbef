//! Arrivals of a rehearsal: reading them, and what is wrong with one.

use crate::limits::ARRIVALS;
use crate::refusal::{ARRIVAL, RUN_LENGTH, TIME_FALLS};
use crate::task::Task;
use crate::text::{lines, read_digits};

/// Most digits of a rehearsal's number.
pub const DIGITS: usize = 15;

/// A run that is to come: when, of which task (from 1), and its length in ticks.
#[derive(Clone, Copy, Debug, PartialEq, Eq)]
pub struct Arrival {
    pub time: u64,
    pub task: u64,
    pub length: u64,
}

/// A refusal's number and the arrival it names, from 1.
pub type Faulty = (u32, usize);

/// Reads a line for each arrival on a table's tasks; the first faulty one decides.
pub fn read_arrivals(text: &[u8], tasks: &[Task]) -> Result<Vec<Arrival>, Faulty> {
    let mut arrivals = Vec::new();
    let mut last = 0;
    for (index, line) in lines(text).enumerate() {
        let beyond = index >= ARRIVALS;
        let arrival = line.filter(|_| !beyond).and_then(read_arrival);
        let arrival = check(arrival, tasks, last).map_err(|no| (no, index + 1))?;
        last = arrival.time;
        arrivals.push(arrival);
    }
    Ok(arrivals)
}

/// Three numbers with one blank between.
fn read_arrival(line: &[u8]) -> Option<Arrival> {
    let mut words = line.split(|&byte| byte == b' ');
    let mut number = || read_digits(words.next()?, DIGITS);
    let (time, task, length) = (number()?, number()?, number()?);
    words
        .next()
        .is_none()
        .then_some(Arrival { time, task, length })
}

/// Tests 25, 26 and 27 after an arrival of a time.
fn check(arrival: Option<Arrival>, tasks: &[Task], last: u64) -> Result<Arrival, u32> {
    let arrival = arrival.ok_or(ARRIVAL)?;
    if arrival.task == 0 || arrival.task > tasks.len() as u64 {
        return Err(ARRIVAL);
    }
    let task = &tasks[arrival.task as usize - 1];
    if arrival.length == 0 || arrival.length > task.cost {
        return Err(RUN_LENGTH);
    }
    if arrival.time < last {
        return Err(TIME_FALLS);
    }
    Ok(arrival)
}
