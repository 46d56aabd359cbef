//! What `rehearse` reads, as its parts.

use super::{days, stop};
use crate::random::Random;
use crate::texts::write;
use second::arrival::Arrival;

pub struct Draft {
    /// The table's text.
    pub text: Vec<u8>,
    /// The line of the stop, with its end.
    pub line: String,
    pub arrivals: Vec<Arrival>,
    /// Lines in the place of arrivals, by their places from 0.
    pub odd: Vec<(usize, String)>,
    /// The cost of each task.
    pub costs: Vec<u64>,
}

impl Draft {
    /// A day that is rehearsed.
    pub fn any(random: &mut Random) -> Self {
        let (table, mut arrivals) = days::any(random);
        let costs: Vec<u64> = table.numbers.iter().step_by(2).map(|&n| n.into()).collect();
        let stop = stop::of(random, &table, &arrivals);
        if random.one_in(8) {
            arrivals.extend(stop::arrivals_after(random, &arrivals, stop, &costs));
        }
        Draft {
            text: write::text(&table),
            line: format!("rehearse {stop}\n"),
            arrivals,
            odd: Vec::new(),
            costs,
        }
    }

    pub fn input(&self) -> Vec<u8> {
        let mut input = [&self.text[..], self.line.as_bytes()].concat();
        for (place, arrival) in self.arrivals.iter().enumerate() {
            match self.odd.iter().rfind(|(odd, _)| *odd == place) {
                Some((_, line)) => input.extend(line.bytes()),
                None => input.extend(line(arrival).bytes()),
            }
        }
        input
    }
}

/// An arrival's line.
pub fn line(arrival: &Arrival) -> String {
    let Arrival { time, task, length } = arrival;
    format!("{time} {task} {length}\n")
}
