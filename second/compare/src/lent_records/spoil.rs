//! Which bytes of a record are spoilt, and to what.

use super::early;
use super::field::{self, task_of, Field};
use super::held::Held;
use super::layout::{self, RECORD};
use super::values;
use crate::random::Random;
use second::limits::TASKS;
use second::record::Record;

/// A few bytes replaced by a number, least byte first; none where the width is 0.
#[derive(Clone, Copy)]
pub struct Spoilt {
    pub place: usize,
    pub width: usize,
    pub value: u64,
}

impl Spoilt {
    pub const NONE: Spoilt = Spoilt {
        place: 0,
        width: 0,
        value: 0,
    };

    /// A number, a byte or nothing.
    pub fn new(random: &mut Random, held: &Held) -> Self {
        match random.below(10) {
            0 => Spoilt::NONE,
            1..=4 => Spoilt::number(random, held),
            5 | 6 => Spoilt::early(random, held),
            _ => Spoilt::byte(random, held),
        }
    }

    /// The deadline of an oldest run, or a last release, to one around the clock.
    fn early(random: &mut Random, held: &Held) -> Self {
        let Record { clock, .. } = held.record;
        let any = random.between(1, held.record.count);
        let task = random.pick(&[any, values::busiest(&held.record)]) as usize - 1;
        let line = &held.record.tasks[task];
        let (field, value) = match random.below(2) {
            0 => (field::deadlines(task), early::deadline(random, clock, line)),
            _ => {
                let last = early::last_release(random, clock, line);
                (field::last_release(task), last)
            }
        };
        Spoilt {
            place: field.place,
            width: field.width,
            value,
        }
    }

    /// One number, to what its width takes of a value.
    fn number(random: &mut Random, held: &Held) -> Self {
        let (place, width) = any_number(random, held.record.count as usize);
        let now = layout::read(&held.bytes[place..place + width]);
        let value = values::spoilt(random, &held.record, now);
        let value = layout::read(&value.to_le_bytes()[..width]);
        Spoilt {
            place,
            width,
            value,
        }
    }

    /// One byte, of any that there are or of a number that may be in use.
    fn byte(random: &mut Random, held: &Held) -> Self {
        let (first, length) = match random.below(2) {
            0 => (0, RECORD),
            _ => any_number(random, held.record.count as usize),
        };
        let place = first + random.place(length);
        Spoilt {
            place,
            width: 1,
            value: values::byte(random, held.bytes[place]).into(),
        }
    }

    /// Replaces the bytes.
    pub fn put(&self, record: &mut [u8]) {
        let value = self.value.to_le_bytes();
        record[self.place..self.place + self.width].copy_from_slice(&value[..self.width]);
    }

    /// The record with the bytes replaced.
    pub fn of(&self, held: &Held) -> Record {
        let mut bytes = held.bytes.clone();
        self.put(&mut bytes);
        layout::record(&bytes)
    }

    /// The task, from 1, whose bytes are spoilt, or 1.
    pub fn task(&self) -> u64 {
        task_of(self.place) as u64 + 1
    }
}

/// A number's place and width: each kind of number as often as another, mostly of tasks in use.
fn any_number(random: &mut Random, tasks: usize) -> (usize, usize) {
    let field = any_field(random, tasks);
    // The runs in use stand first, so the first places are taken more often.
    let within = match random.below(2) {
        0 => random.place(field.length),
        _ => random.place(field.length.min(4)),
    };
    (field.place_of(within), field.width)
}

fn any_field(random: &mut Random, tasks: usize) -> Field {
    if random.one_in(6) {
        return random.pick(&field::BOX);
    }
    let task = match random.below(10) {
        0 => random.place(TASKS),
        1 => tasks.min(TASKS - 1),
        _ => random.place(tasks),
    };
    random.pick(&field::of_task(task))
}
