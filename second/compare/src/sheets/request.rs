//! What `office` reads, as its parts.

use super::{names, ticks};
use crate::random::Random;
use crate::tables::table::Table;
use crate::texts::write;

pub struct Request {
    /// The table's text.
    pub text: Vec<u8>,
    /// The line of the tick length, with its end.
    pub line: String,
    pub names: Vec<String>,
}

impl Request {
    /// A text with so many names.
    pub fn of(random: &mut Random, text: Vec<u8>, number: usize) -> Self {
        Request {
            text,
            line: format!("names {}\n", ticks::length(random)),
            names: names::drawn(random, number),
        }
    }

    /// A table with a name for each task.
    pub fn of_table(random: &mut Random, table: &Table) -> Self {
        Request::of(random, write::text(table), table.numbers.len() / 2)
    }

    pub fn input(&self) -> Vec<u8> {
        let mut input = [&self.text[..], self.line.as_bytes()].concat();
        for name in &self.names {
            input.extend(name.bytes());
            input.push(b'\n');
        }
        input
    }
}
