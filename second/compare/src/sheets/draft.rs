//! A sheet as its words, so that each of them can be made odd.

use super::{names, rounding, ticks};
use crate::random::Random;
use crate::tables::{self, table::Table};

pub struct Draft {
    pub cores: String,
    pub tick: String,
    /// Name, cost and period, in nanoseconds.
    pub jobs: Vec<[String; 3]>,
}

impl Draft {
    /// A table of any sort with names and a tick length.
    pub fn any(random: &mut Random) -> Self {
        let table = tables::any(random);
        let tick = ticks::length(random);
        Draft::of(random, &table, tick)
    }

    /// A sheet that is read as a table, numbers of 16 digits aside.
    fn of(random: &mut Random, table: &Table, tick: u64) -> Self {
        let tasks = table.numbers.chunks_exact(2);
        let names = names::drawn(random, tasks.len());
        let exact = random.one_in(3);
        let job = |(name, task): (String, &[u32])| {
            let (cost, period) = (u64::from(task[0]), u64::from(task[1]));
            let (cost, period) = match exact {
                true => (cost * tick, period * tick),
                false => rounding::spread(random, cost, period, tick),
            };
            [name, cost.to_string(), period.to_string()]
        };
        Draft {
            cores: table.cores.to_string(),
            tick: tick.to_string(),
            jobs: names.into_iter().zip(tasks).map(job).collect(),
        }
    }

    /// What `sheet` and `table` read.
    pub fn input(&self) -> Vec<u8> {
        let mut text = format!("{}\n{}\n", self.cores, self.tick);
        for job in &self.jobs {
            text += &job.join(",");
            text.push('\n');
        }
        text.into_bytes()
    }
}
