//! The program that rehearses a day: a table's text, a stop and arrivals in, what the box would do or a refusal out.

use crate::day::read_day;
use crate::skipping;

/// What the program writes for an input.
pub fn rehearse(input: &[u8]) -> Vec<u8> {
    match read_day(input) {
        Ok(day) => skipping::run(&day),
        Err(refused) => refused,
    }
}
