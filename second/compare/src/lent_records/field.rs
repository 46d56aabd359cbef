//! Where each number of a record stands in its bytes, by the header, and how wide it is.

/// Numbers that are alike, one after the other.
#[derive(Clone, Copy, Debug)]
pub struct Field {
    /// The first byte of the first.
    pub place: usize,
    /// The bytes of each.
    pub width: usize,
    /// How many there are.
    pub length: usize,
}

/// The core count, the common period, the number of tasks and the clock.
pub const BOX: [Field; 4] = [
    field(0, 4, 1),
    field(4, 4, 1),
    field(8, 8, 1),
    field(CLOCK, 8, 1),
];

/// Where the first task's line stands, and the bytes of a line.
const LINES: usize = 16;
const LINE: usize = 76;
/// Where the clock stands.
const CLOCK: usize = 4_880;
/// Where the first task's state stands, which says what it is at, and the bytes of a state.
const STATES: usize = 4_888;
const STATE: usize = 152;

/// Cost, period, weight and shares, by their places in a line.
const OF_LINE: [Field; 4] = [
    field(0, 4, 1),
    field(4, 4, 1),
    field(8, 4, 1),
    field(12, 4, 16),
];

/// Last release, deadlines, turn counts, place, cores, unfinished runs and the flag, by their places in a state.
const OF_STATE: [Field; 7] = [
    field(0, 8, 1),
    field(8, 8, 8),
    field(72, 4, 16),
    field(136, 4, 1),
    field(140, 1, 8),
    field(148, 2, 1),
    field(150, 2, 1),
];

const fn field(place: usize, width: usize, length: usize) -> Field {
    Field {
        place,
        width,
        length,
    }
}

/// The numbers of a task, counted from 0: those of its line, then those of its state.
pub fn of_task(task: usize) -> Vec<Field> {
    let line = OF_LINE.map(|field| field.after(LINES + task * LINE));
    let state = OF_STATE.map(|field| field.after(STATES + task * STATE));
    [&line[..], &state].concat()
}

/// A task's shares.
pub fn shares(task: usize) -> Field {
    OF_LINE[3].after(LINES + task * LINE)
}

/// A task's last release.
pub fn last_release(task: usize) -> Field {
    OF_STATE[0].after(STATES + task * STATE)
}

/// The deadlines of a task's runs.
pub fn deadlines(task: usize) -> Field {
    OF_STATE[1].after(STATES + task * STATE)
}

/// A task's turn counts.
pub fn turn_counts(task: usize) -> Field {
    OF_STATE[2].after(STATES + task * STATE)
}

/// The task, from 0, that a byte of the record belongs to, or 0.
pub fn task_of(place: usize) -> usize {
    match place {
        STATES.. => (place - STATES) / STATE,
        LINES..CLOCK => (place - LINES) / LINE,
        _ => 0,
    }
}

impl Field {
    fn after(self, start: usize) -> Self {
        Field {
            place: self.place + start,
            ..self
        }
    }

    /// Where one of the numbers stands.
    pub fn place_of(&self, number: usize) -> usize {
        self.place + number * self.width
    }
}
