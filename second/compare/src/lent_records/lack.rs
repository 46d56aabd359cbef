//! A row of shares or turn counts that lacks a part, so that one number more, on any core, brings its sum back.

use super::field;
use super::held::Held;
use super::layout;
use super::spoil::Spoilt;
use crate::random::Random;
use second::limits::CORES;
use second::record::Record;

#[derive(Clone, Copy)]
pub struct Lack {
    /// The task, from 0, and whether its turn counts lack the part, or else its shares.
    task: usize,
    counts: bool,
    part: u64,
}

impl Lack {
    /// Takes a part, or all, from one number of a row.
    pub fn take(random: &mut Random, record: &mut Record) -> Self {
        let task = random.below(record.count) as usize;
        let counts = record.states[task].place > 0 && random.one_in(3);
        let row = match counts {
            true => &mut record.states[task].counts,
            false => &mut record.tasks[task].shares,
        };
        let part = take(random, row);
        Lack { task, counts, part }
    }

    /// The part given to any core.
    pub fn repaired(&self, random: &mut Random, held: &Held) -> Spoilt {
        let row = match self.counts {
            true => field::turn_counts(self.task),
            false => field::shares(self.task),
        };
        let (place, width) = (row.place_of(random.place(CORES)), row.width);
        let now = layout::read(&held.bytes[place..place + width]);
        Spoilt {
            place,
            width,
            value: now + self.part,
        }
    }
}

/// Takes from a number that is not 0, and answers how much.
fn take(random: &mut Random, row: &mut [u64; CORES]) -> u64 {
    let given: Vec<usize> = (0..CORES).filter(|&core| row[core] > 0).collect();
    if given.is_empty() {
        return 1;
    }
    let from = random.pick(&given);
    let any = random.between(1, row[from]);
    let part = random.pick(&[1, any, row[from]]);
    row[from] -= part;
    part
}
