//! Yagomila's calls for a program in Rust, which links the archive: `rustc -L target/staticlib -l static=host`.
//! A refusal is its number, as `include/yagomila.h` has it.

use std::fmt;
use std::mem::size_of;

const CORES_MAX: usize = 16;
const TASKS_MAX: usize = 64;
const RUNS_MAX: usize = 8;
/// A buffer of this many bytes is enough for the listing of any table that is taken.
const LISTING_MAX: usize = 15_960;
const RECORD_BYTES: usize = 14_616;

/// A task's line of the plan.
#[repr(C)]
#[derive(Clone, Copy, PartialEq, Eq)]
struct Line {
    cost: u32,
    period: u32,
    weight: u32,
    shares: [u32; CORES_MAX],
}

#[repr(C)]
#[derive(Clone, Copy, PartialEq, Eq)]
struct Plan {
    cores: u32,
    common_period: u32,
    task_count: u64,
    lines: [Line; TASKS_MAX],
}

/// What a task is at.
#[repr(C)]
#[derive(Clone, Copy, PartialEq, Eq)]
struct Task {
    last_release: u64,
    deadlines: [u64; RUNS_MAX],
    turn_counts: [u32; CORES_MAX],
    place: u32,
    cores: [u8; RUNS_MAX],
    unfinished: u16,
    had_release: u16,
}

#[repr(C)]
#[derive(Clone, Copy, PartialEq, Eq)]
struct Record {
    plan: Plan,
    clock: u64,
    tasks: [Task; TASKS_MAX],
}

const _: () = assert!(size_of::<Record>() == RECORD_BYTES);

/// The empty record, which every call but a start refuses by 15.
const EMPTY: Record = Record {
    plan: Plan {
        cores: 0,
        common_period: 0,
        task_count: 0,
        lines: [Line {
            cost: 0,
            period: 0,
            weight: 0,
            shares: [0; CORES_MAX],
        }; TASKS_MAX],
    },
    clock: 0,
    tasks: [Task {
        last_release: 0,
        deadlines: [0; RUNS_MAX],
        turn_counts: [0; CORES_MAX],
        place: 0,
        cores: [0; RUNS_MAX],
        unfinished: 0,
        had_release: 0,
    }; TASKS_MAX],
};

/// A choice in numbers.
#[repr(C)]
struct Told {
    kind: u64,
    task: u64,
    deadline: u64,
}

extern "C" {
    fn yagomila_admit(cores: u32, table: *const u8, table_len: usize) -> u32;
    fn yagomila_listing(
        cores: u32,
        table: *const u8,
        table_len: usize,
        buf: *mut u8,
        buf_len: usize,
    ) -> i64;
    fn yagomila_start(held: *mut Record, cores: u32, table: *const u8, table_len: usize) -> u32;
    fn yagomila_release(
        held: *mut Record,
        task: usize,
        time: u64,
        core: *mut usize,
        deadline: *mut u64,
    ) -> u32;
    fn yagomila_finish(held: *mut Record, task: usize, time: u64, late: *mut i64) -> u32;
    fn yagomila_look(held: *mut Record, core: usize, time: u64, choice: *mut Told) -> u32;
    fn yagomila_list(held: *const Record, buf: *mut u8, buf_len: usize, len: *mut i64) -> u32;
}

/// Cost and period of each task as the calls want them: four bytes each, least byte first.
fn bytes(table: &[(u32, u32)]) -> Vec<u8> {
    table
        .iter()
        .flat_map(|(cost, period)| [cost.to_le_bytes(), period.to_le_bytes()])
        .flatten()
        .collect()
}

/// What was written where nothing was refused, else the refusal.
fn unless_refused<T>(refusal: u32, written: T) -> Result<T, u32> {
    match refusal {
        0 => Ok(written),
        refusal => Err(refusal),
    }
}

/// The listing that takes so much of the buffer.
fn text(mut buf: Vec<u8>, length: usize) -> String {
    buf.truncate(length);
    String::from_utf8(buf).expect("a listing is ASCII")
}

/// Whether a table of costs and periods is taken on so many cores; else the refusal number, 1 to 6.
pub fn admit(cores: u32, table: &[(u32, u32)]) -> Result<(), u32> {
    let table = bytes(table);
    // SAFETY: the pointer and the length are those of one vector, which outlives the call.
    let refusal = unsafe { yagomila_admit(cores, table.as_ptr(), table.len()) };
    unless_refused(refusal, ())
}

/// The listing of a table's plan, or the refusal number, 1 to 6.
pub fn listing(cores: u32, table: &[(u32, u32)]) -> Result<String, u32> {
    let table = bytes(table);
    let mut buf = vec![0; LISTING_MAX];
    // SAFETY: each pointer and length are those of one vector, which outlives the call, and the two do not overlap.
    let answer = unsafe {
        yagomila_listing(
            cores,
            table.as_ptr(),
            table.len(),
            buf.as_mut_ptr(),
            buf.len(),
        )
    };
    match usize::try_from(answer) {
        Ok(length) => Ok(text(buf, length)),
        Err(_) => Err(answer.unsigned_abs() as u32),
    }
}

/// What a core is to run: nothing, a task that runs on that core alone, or one that moves, on its first core (lower) or on
/// another (upper); with the deadline of the task's oldest unfinished run.
#[derive(Clone, Copy, Debug, PartialEq, Eq)]
pub enum Choice {
    Idle,
    Fixed { task: usize, deadline: u64 },
    Lower { task: usize, deadline: u64 },
    Upper { task: usize, deadline: u64 },
}

impl Choice {
    fn of(told: &Told) -> Choice {
        let (task, deadline) = (told.task as usize, told.deadline);
        match told.kind {
            0 => Choice::Idle,
            1 => Choice::Fixed { task, deadline },
            2 => Choice::Lower { task, deadline },
            3 => Choice::Upper { task, deadline },
            kind => unreachable!("a choice of kind {kind}"),
        }
    }

    /// The task that is to run, if one is.
    pub fn task(&self) -> Option<usize> {
        match *self {
            Choice::Idle => None,
            Choice::Fixed { task, .. }
            | Choice::Lower { task, .. }
            | Choice::Upper { task, .. } => Some(task),
        }
    }
}

impl fmt::Display for Choice {
    fn fmt(&self, out: &mut fmt::Formatter) -> fmt::Result {
        match self {
            Choice::Idle => write!(out, "idle"),
            Choice::Fixed { task, deadline } => write!(out, "fixed {task} deadline {deadline}"),
            Choice::Lower { task, deadline } => write!(out, "lower {task} deadline {deadline}"),
            Choice::Upper { task, deadline } => write!(out, "upper {task} deadline {deadline}"),
        }
    }
}

/// A dispatcher of one plan. Tasks and cores are numbered from 1; a call that is refused changes nothing.
#[derive(Clone, PartialEq, Eq)]
pub struct Dispatcher {
    /// On the heap, so that to move a dispatcher copies no record.
    held: Box<Record>,
}

// SAFETY, of every call below: each pointer is that of a reference or of a vector with its length, which is valid and aligned
// and outlives the call; a record behind `&mut self`, the numbers of a function's own and its vectors do not overlap.
impl Dispatcher {
    /// Plans a table of costs and periods: a dispatcher with clock 0 and no runs, or the refusal, 1 to 6.
    pub fn start(cores: u32, table: &[(u32, u32)]) -> Result<Dispatcher, u32> {
        let table = bytes(table);
        let mut held = Box::new(EMPTY);
        let refusal = unsafe { yagomila_start(&mut *held, cores, table.as_ptr(), table.len()) };
        unless_refused(refusal, Dispatcher { held })
    }

    /// A run of a task arrives: the core that it goes to, and its deadline. One that comes less than a period after the
    /// last release time is held until a period after it. Refusals: 7, 12, 8, 12, 10.
    pub fn release(&mut self, task: usize, time: u64) -> Result<(usize, u64), u32> {
        let (mut core, mut deadline) = (0, 0);
        let refusal =
            unsafe { yagomila_release(&mut *self.held, task, time, &mut core, &mut deadline) };
        unless_refused(refusal, (core, deadline))
    }

    /// A task's oldest unfinished run ends, unless it is held: the time less its deadline. Refusals: 7, 12, 8, 11.
    pub fn finish(&mut self, task: usize, time: u64) -> Result<i64, u32> {
        let mut late = 0;
        let refusal = unsafe { yagomila_finish(&mut *self.held, task, time, &mut late) };
        unless_refused(refusal, late)
    }

    /// What a core is to run now. Refusals: 13, 12, 8.
    pub fn look(&mut self, core: usize, time: u64) -> Result<Choice, u32> {
        let mut told = Told {
            kind: 0,
            task: 0,
            deadline: 0,
        };
        let refusal = unsafe { yagomila_look(&mut *self.held, core, time, &mut told) };
        unless_refused(refusal, Choice::of(&told))
    }

    /// The listing of the plan. No refusal is met: the record is sound, and the buffer holds every listing.
    pub fn listing(&self) -> Result<String, u32> {
        let mut buf = vec![0; LISTING_MAX];
        let mut length = 0;
        let refusal =
            unsafe { yagomila_list(&*self.held, buf.as_mut_ptr(), buf.len(), &mut length) };
        unless_refused(refusal, ()).map(|()| text(buf, length as usize))
    }
}
