//! The office's sheet: reading it, writing it and planning its table.

use crate::limits::{SHEET, TICK};
use crate::name::{read_name, repeated};
use crate::plan::{plan, Plan};
use crate::refusal::{Refusal, SAME_NAME, SHEET_LINE, TICK_LENGTH};
use crate::text::{lines, read_digits, split_line};

/// Most digits of a sheet's number.
const DIGITS: usize = 15;

/// The tick length in nanoseconds, and each task's name, cost and period, in ticks.
#[derive(Clone, Debug, PartialEq, Eq)]
pub struct Sheet<'a> {
    pub tick: u64,
    pub names: Vec<&'a [u8]>,
    pub table: Vec<u32>,
}

/// A job's name, cost and period, in nanoseconds.
type Job<'a> = (&'a [u8], u64, u64);

/// Reads a sheet, or gives refusal 19 or 17; names may be repeated.
pub fn read_sheet(text: &[u8]) -> Result<Sheet<'_>, u32> {
    let (tick, jobs) = split_line(text).ok_or(TICK_LENGTH)?;
    let tick = read_tick(tick).ok_or(TICK_LENGTH)?;
    if text.len() > SHEET {
        return Err(SHEET_LINE);
    }
    let (mut names, mut table) = (Vec::new(), Vec::new());
    for line in lines(jobs) {
        let (name, cost, period) = line.and_then(read_job).ok_or(SHEET_LINE)?;
        names.push(name);
        table.extend([number(cost.div_ceil(tick)), number(period / tick)]);
    }
    Ok(Sheet { tick, names, table })
}

/// A tick length in its range.
pub fn read_tick(digits: &[u8]) -> Option<u64> {
    read_digits(digits, DIGITS).filter(|tick| (1..=TICK).contains(tick))
}

/// A line of a name and two numbers, with a comma between each.
fn read_job(line: &[u8]) -> Option<Job<'_>> {
    let mut fields = line.split(|&byte| byte == b',');
    let name = read_name(fields.next()?)?;
    let cost = read_digits(fields.next()?, DIGITS)?;
    let period = read_digits(fields.next()?, DIGITS)?;
    fields.next().is_none().then_some((name, cost, period))
}

/// Ticks as a table's number; planning refuses all from 1,000,001 on alike, so that the largest stands for those beyond.
fn number(ticks: u64) -> u32 {
    u32::try_from(ticks).unwrap_or(u32::MAX)
}

impl Sheet<'_> {
    /// Plans the table: refusal 18, then planning's.
    pub fn plan(&self, cores: u32) -> Result<Plan, Refusal> {
        if repeated(&self.names) {
            return Err(Refusal::plain(SAME_NAME));
        }
        plan(cores, &self.table)
    }

    /// The sheet's text, its ticks times the tick length.
    pub fn write(&self) -> Vec<u8> {
        let mut text = format!("{}\n", self.tick);
        for (name, task) in self.names.iter().zip(self.table.chunks_exact(2)) {
            let [cost, period] = [task[0], task[1]].map(|ticks| u64::from(ticks) * self.tick);
            text += &format!("{},{cost},{period}\n", name.escape_ascii());
        }
        text.into_bytes()
    }
}
