//! The largest value of each number, and the sizes that follow from them.

/// Most cores of a box.
pub const CORES: usize = 16;
/// Most tasks of a table.
pub const TASKS: usize = 64;
/// Longest period, in ticks.
pub const PERIOD: u64 = 1_000_000;
/// Largest common period of all tasks.
pub const COMMON: u64 = 1_000_000;
/// Last tick of the clock.
pub const CLOCK: u64 = 1_000_000_000_000;
/// Most unfinished runs of a task.
pub const RUNS: usize = 8;
/// Most bytes of a program's text.
pub const TEXT: usize = 4_096;
/// Most bytes of an office's sheet.
pub const SHEET: usize = 4_096;
/// Most letters of a job's name.
pub const NAME: usize = 12;
/// Longest tick, in nanoseconds.
pub const TICK: u64 = 1_000_000;
/// Most bytes of a player's input.
pub const CALLS: usize = 65_536;
/// Most arrivals of a rehearsal.
pub const ARRIVALS: usize = 4_096;
