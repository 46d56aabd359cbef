//! Long inputs: as many arrivals as are taken, more of them, and more bytes than any day needs.

use super::draft::{line, Draft};
use super::{stop_line, table};
use crate::random::Random;
use second::arrival::Arrival;
use second::limits::ARRIVALS;

/// A table's text, the stop's line and every arrival at their longest.
const ROOM: usize = 200_729;

pub fn input(random: &mut Random) -> Vec<u8> {
    match random.below(6) {
        0 | 1 => many(random),
        2..=4 => long(random),
        _ => late_stop(random),
    }
}

/// About as many arrivals as are taken: the last ones faulty or not to be read.
fn many(random: &mut Random) -> Vec<u8> {
    let mut draft = Draft::any(random);
    let number = ARRIVALS + random.pick(&[0, 1, 1, 1, 2]) - random.place(2);
    let costs = draft.costs.clone();
    let mut time = 0;
    draft.arrivals.clear();
    while draft.arrivals.len() < number {
        let task = random.place(costs.len());
        let (task, length) = (task as u64 + 1, random.between(1, costs[task]));
        draft.arrivals.push(Arrival { time, task, length });
        time += random.below(2 * length + 1);
    }
    let last = random.pick(&["", "x", "x\n", "0 0 0\n", "\n"]);
    [draft.input(), last.into()].concat()
}

/// A day with a tail behind its last arrival, or behind one that is faulty: lines, or one long line.
fn long(random: &mut Random) -> Vec<u8> {
    let mut draft = Draft::any(random);
    match random.below(6) {
        0 => draft.text = table::refused(random),
        1 => draft.line = stop_line::over(random),
        2 => super::fault::put(random, &mut draft),
        _ => {}
    }
    let mut input = draft.input();
    let length = length(random);
    let last = draft.arrivals.last().map(line);
    let last = last.unwrap_or_else(|| "0 1 1\n".to_string());
    let tail = random.pick(&[last.as_str(), "1", "\n", "999999999999999 1 1\n"]);
    while input.len() < length {
        input.extend(tail.bytes());
    }
    input.truncate(length);
    input
}

/// A stop's line beyond all room.
fn late_stop(random: &mut Random) -> Vec<u8> {
    let mut input = b"1\n".to_vec();
    let lines = random.pick(&["1 1\n", "1", "rehearse 01\n", "rehearse "]);
    let length = length(random);
    while input.len() < length {
        input.extend(lines.bytes());
    }
    input.extend(b"\nrehearse 10\n0 1 1\n");
    input
}

/// Around the room, or far beyond it.
fn length(random: &mut Random) -> usize {
    let near = ROOM + random.place(5) - 2;
    random.pick(&[near, near, near, 262_144, 262_145, 1_100_000])
}
