//! A day that is to be rehearsed: a fresh record, a stop and the arrivals; how it is read.

use crate::arrival::{read_arrivals, Arrival, DIGITS};
use crate::limits::CLOCK;
use crate::program::unreadable;
use crate::record::Record;
use crate::refusal::{Refusal, TIME_OVER};
use crate::text::{lines, read_digits, read_text};

/// What the line between the table and the arrivals starts with.
const DIVIDER: &[u8] = b"rehearse ";

/// The record is fresh, the stop at most the clock's limit, and no arrival's time lies below the one before.
pub struct Day {
    pub record: Record,
    pub stop: u64,
    pub arrivals: Vec<Arrival>,
}

/// Reads and plans an input: 16, planning's, 12, then the arrivals; or gives the refusal's line.
pub fn read_day(input: &[u8]) -> Result<Day, Vec<u8>> {
    let (text, rest) = divide(input);
    let (cores, table) = read_text(text).map_err(unreadable)?;
    let (stop, rest) = rest.ok_or_else(|| unreadable(lines(text).count() + 1))?;
    let record = Record::fresh(cores, &table).map_err(|refusal| refusal.line())?;
    if stop > CLOCK {
        return Err(Refusal::plain(TIME_OVER).line());
    }
    let tasks = &record.tasks[..record.count as usize];
    let arrivals = read_arrivals(rest, tasks)
        .map_err(|(no, arrival)| format!("refused {no} arrival {arrival}\n").into_bytes())?;
    Ok(Day {
        record,
        stop,
        arrivals,
    })
}

/// The table's text, and the stop with what follows its line, if there is such a line.
fn divide(input: &[u8]) -> (&[u8], Option<(u64, &[u8])>) {
    let mut before = 0;
    for line in input.split_inclusive(|&byte| byte == b'\n') {
        let after = before + line.len();
        if let Some(stop) = read_stop(line) {
            return (&input[..before], Some((stop, &input[after..])));
        }
        before = after;
    }
    (input, None)
}

/// The stop of a line that is of the divider's form; any other line belongs to the table.
fn read_stop(line: &[u8]) -> Option<u64> {
    let digits = line.strip_prefix(DIVIDER)?.strip_suffix(b"\n")?;
    read_digits(digits, DIGITS)
}
