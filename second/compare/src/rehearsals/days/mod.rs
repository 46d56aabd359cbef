//! Tables that are taken with arrivals on them, each sort in a file of its own.

mod bursts;
mod early;
mod limit;
mod once;
mod overload;
mod periodic;
mod sparse;

use super::table;
use crate::random::Random;
use crate::tables::table::Table;
use second::arrival::Arrival;

/// Makes arrivals on a table's tasks, about so many.
type Sort = fn(&mut Random, &Tasks, usize) -> Vec<Arrival>;

const SORTS: [Sort; 9] = [
    once::arrivals,
    periodic::arrivals,
    periodic::arrivals,
    early::arrivals,
    early::arrivals,
    bursts::arrivals,
    overload::arrivals,
    limit::arrivals,
    sparse::arrivals,
];

/// Numbers of arrivals; few days are long, since an emulator runs the product.
const NUMBERS: [usize; 8] = [0, 1, 3, 10, 20, 40, 80, 150];

/// A table and arrivals, times not falling.
pub fn any(random: &mut Random) -> (Table, Vec<Arrival>) {
    let table = table::taken(random);
    let tasks = Tasks::of(random, &table);
    let number = random.pick(&NUMBERS);
    let mut arrivals = random.pick(&SORTS)(random, &tasks, number);
    arrivals.sort_by_key(|arrival| arrival.time);
    (table, arrivals)
}

/// Cost and period of each task, and how long runs mostly are.
pub struct Tasks {
    pairs: Vec<(u64, u64)>,
    /// Out of ten runs, those of the whole cost.
    full: u64,
}

impl Tasks {
    fn of(random: &mut Random, table: &Table) -> Self {
        let pairs = table.numbers.chunks_exact(2);
        Tasks {
            pairs: pairs.map(|task| (task[0].into(), task[1].into())).collect(),
            full: random.pick(&[0, 5, 10, 10]),
        }
    }

    fn number(&self) -> u64 {
        self.pairs.len() as u64
    }

    /// Any task, from 1.
    fn any(&self, random: &mut Random) -> u64 {
        random.between(1, self.number())
    }

    fn period(&self, task: u64) -> u64 {
        self.pairs[task as usize - 1].1
    }

    /// A task's run at a time.
    fn run(&self, random: &mut Random, task: u64, time: u64) -> Arrival {
        let cost = self.pairs[task as usize - 1].0;
        let any = random.between(1, cost);
        let length = match random.below(10) < self.full {
            true => cost,
            false => random.pick(&[1, any, any, cost]),
        };
        Arrival { time, task, length }
    }
}
