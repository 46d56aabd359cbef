//! Admission and planning of a table.

use crate::assign::assign;
use crate::bounds;
use crate::limits::{COMMON, CORES, PERIOD, TASKS};
use crate::refusal::{self, Refusal};
use crate::task::Task;

/// A planned table: every task with its shares.
#[derive(Clone, Debug, PartialEq, Eq)]
pub struct Plan {
    pub cores: u64,
    pub common: u64,
    pub tasks: Vec<Task>,
}

/// Tests a table (cost then period for each task) without assigning it.
pub fn admit(cores: u32, table: &[u32]) -> Result<(), Refusal> {
    check(cores, table).map(|_| ())
}

/// Tests a table and gives every task its shares.
pub fn plan(cores: u32, table: &[u32]) -> Result<Plan, Refusal> {
    let common = check(cores, table)?;
    let mut tasks: Vec<Task> = pairs(table)
        .map(|(cost, period)| Task {
            cost,
            period,
            weight: cost * (common / period),
            shares: [0; CORES],
        })
        .collect();
    assign(cores as usize, common, &mut tasks);
    Ok(Plan {
        cores: u64::from(cores),
        common,
        tasks,
    })
}

/// The lateness bound of each task of a plan, in ticks.
pub fn late(plan: &Plan) -> Vec<i64> {
    bounds::late(plan.common, &plan.tasks)
}

/// Refusal 1 for a core count out of range.
pub fn check_cores(cores: u32) -> Result<(), Refusal> {
    if cores == 0 || cores as usize > CORES {
        return Err(Refusal::plain(refusal::CORE_COUNT));
    }
    Ok(())
}

/// The greatest number that divides both.
fn common_divisor(mut a: u64, mut b: u64) -> u64 {
    while b != 0 {
        (a, b) = (b, a % b);
    }
    a
}

/// The least common multiple of two positive numbers.
pub fn common_multiple(a: u64, b: u64) -> u64 {
    a / common_divisor(a, b) * b
}

/// Runs tests 1 to 6 in their order and answers the common period.
fn check(cores: u32, table: &[u32]) -> Result<u64, Refusal> {
    check_cores(cores)?;
    if table.is_empty() || table.len() > 2 * TASKS || !table.len().is_multiple_of(2) {
        return Err(Refusal::plain(refusal::TABLE_SIZE));
    }
    check_tasks(table)?;
    let common = common_period(table)?;
    let sum: u64 = pairs(table)
        .map(|(cost, period)| cost * (common / period))
        .sum();
    if sum > u64::from(cores) * common {
        return Err(Refusal::plain(refusal::TOO_HEAVY));
    }
    Ok(common)
}

/// The first faulty task decides; 3 comes before 4 in each.
fn check_tasks(table: &[u32]) -> Result<(), Refusal> {
    for (index, (cost, period)) in pairs(table).enumerate() {
        let task = index + 1;
        if cost == 0 || period == 0 || period > PERIOD {
            let no = refusal::TASK_RANGE;
            return Err(Refusal { no, task });
        }
        if cost > period {
            let no = refusal::COST_OVER_PERIOD;
            return Err(Refusal { no, task });
        }
    }
    Ok(())
}

/// The common period, or refusal 5 naming the task that takes it over the limit.
fn common_period(table: &[u32]) -> Result<u64, Refusal> {
    let mut common = 1;
    for (index, (_, period)) in pairs(table).enumerate() {
        common = common_multiple(common, period);
        if common > COMMON {
            return Err(Refusal {
                no: refusal::COMMON_PERIOD,
                task: index + 1,
            });
        }
    }
    Ok(common)
}

/// The table's tasks as (cost, period).
fn pairs(table: &[u32]) -> impl Iterator<Item = (u64, u64)> + '_ {
    table
        .chunks_exact(2)
        .map(|pair| (u64::from(pair[0]), u64::from(pair[1])))
}
