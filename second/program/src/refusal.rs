//! Refusals: their numbers, the task they name and the line that is printed.

use std::fmt;

pub const CORE_COUNT: u32 = 1;
pub const TABLE_SIZE: u32 = 2;
pub const TASK_RANGE: u32 = 3;
pub const COST_OVER_PERIOD: u32 = 4;
pub const COMMON_PERIOD: u32 = 5;
pub const TOO_HEAVY: u32 = 6;
pub const NO_SUCH_TASK: u32 = 7;
pub const TIME_PAST: u32 = 8;
pub const TOO_MANY_RUNS: u32 = 10;
pub const NO_RUN: u32 = 11;
pub const TIME_OVER: u32 = 12;
pub const NO_SUCH_CORE: u32 = 13;
pub const BUFFER_SHORT: u32 = 14;
pub const UNSOUND: u32 = 15;
pub const UNREADABLE: u32 = 16;
pub const SHEET_LINE: u32 = 17;
pub const SAME_NAME: u32 = 18;
pub const TICK_LENGTH: u32 = 19;
pub const ARRIVAL: u32 = 25;
pub const RUN_LENGTH: u32 = 26;
pub const TIME_FALLS: u32 = 27;

/// Planning's refusal: its number and the task it names (from 1), or 0.
#[derive(Clone, Copy, Debug, PartialEq, Eq)]
pub struct Refusal {
    pub no: u32,
    pub task: usize,
}

impl Refusal {
    /// A refusal that names no task.
    pub fn plain(no: u32) -> Self {
        Refusal { no, task: 0 }
    }

    /// What a program writes for it.
    pub fn line(&self) -> Vec<u8> {
        format!("{self}\n").into_bytes()
    }
}

impl fmt::Display for Refusal {
    fn fmt(&self, f: &mut fmt::Formatter) -> fmt::Result {
        write!(f, "refused {}", self.no)?;
        if self.task > 0 {
            write!(f, " task {}", self.task)?;
        }
        Ok(())
    }
}
