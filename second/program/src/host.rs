//! The host's calls on tables handed as bytes.

use crate::limits::{CORES, RUNS, TASKS};
use crate::listing;
use crate::plan::{self, check_cores, Plan};
use crate::record::{Record, Run, State};
use crate::refusal::{self, Refusal};
use crate::task::Task;

/// Bytes of one task: cost then period, least byte first.
const TASK_BYTES: usize = 8;
/// What a task is at in a fresh record.
const FRESH: State = State {
    counts: [0; CORES],
    place: 0,
    last: 0,
    had: 0,
    runs: [Run {
        core: 0,
        deadline: 0,
    }; RUNS],
    unfinished: 0,
};

/// The admission number: 0, or a refusal.
pub fn admit_bytes(cores: u32, table: &[u8]) -> u32 {
    let answer = numbers(cores, table).and_then(|table| plan::admit(cores, &table));
    match answer {
        Ok(()) => 0,
        Err(refusal) => refusal.no,
    }
}

/// Plans a table into a lent record; or a refusal, which leaves the record as it was.
pub fn start_bytes(record: &mut Record, cores: u32, table: &[u8]) -> Result<(), u32> {
    numbers(cores, table)
        .and_then(|table| plan::plan(cores, &table))
        .map(|plan| hold(record, &plan))
        .map_err(|refusal| refusal.no)
}

/// Writes the listing and answers its length, or the refusal number made negative.
pub fn listing_bytes(cores: u32, table: &[u8], buffer: &mut [u8]) -> i64 {
    match list(cores, table, buffer) {
        Ok(length) => length as i64,
        Err(no) => -i64::from(no),
    }
}

/// Planning's refusals, then 14.
fn list(cores: u32, table: &[u8], buffer: &mut [u8]) -> Result<usize, u32> {
    let plan = numbers(cores, table)
        .and_then(|table| plan::plan(cores, &table))
        .map_err(|refusal| refusal.no)?;
    listing::place(&listing::of_plan(&plan), buffer)
}

/// Makes a record that of a plan in place: clock 0, no runs, slots past the tasks 0.
fn hold(record: &mut Record, plan: &Plan) {
    let (used, unused) = record.tasks.split_at_mut(plan.tasks.len());
    used.copy_from_slice(&plan.tasks);
    unused.fill(Task::default());
    record.states = [FRESH; TASKS];
    record.cores = plan.cores;
    record.count = plan.tasks.len() as u64;
    record.common = plan.common;
    record.clock = 0;
}

/// The table as numbers; 1 is tested before 2 here as everywhere.
fn numbers(cores: u32, table: &[u8]) -> Result<Vec<u32>, Refusal> {
    check_cores(cores)?;
    if !table.len().is_multiple_of(TASK_BYTES) || table.len() > TASKS * TASK_BYTES {
        return Err(Refusal::plain(refusal::TABLE_SIZE));
    }
    Ok(table
        .chunks_exact(4)
        .map(|b| u32::from_le_bytes([b[0], b[1], b[2], b[3]]))
        .collect())
}
