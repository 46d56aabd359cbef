//! Inputs around the longest length, and tables over theirs.

use super::divider::DIVIDER;
use super::sequence;
use crate::random::Random;
use crate::tables;
use crate::texts::write;
use second::limits::{CALLS, TEXT};

/// Room for a last line of any length.
const LAST: usize = 60;

pub fn input(random: &mut Random) -> Vec<u8> {
    if random.one_in(4) {
        return long_table(random);
    }
    let table = tables::taken(random);
    let mut input = [&write::text(&table)[..], DIVIDER].concat();
    sequence::extend(random, &table, &mut input, CALLS - LAST);
    let length = CALLS + random.place(4) - 2;
    close(&mut input, length);
    input
}

/// Fills an input to a length with looks that can be read.
fn close(input: &mut Vec<u8>, length: usize) {
    while length - input.len() > 46 {
        input.extend(b"look 1 0\n");
    }
    // A look has nine bytes with one digit for each number.
    let more = length - input.len() - 9;
    let first = more.min(14);
    let (core, time) = ("1".repeat(1 + first), "1".repeat(1 + more - first));
    input.extend(format!("look {core} {time}\n").bytes());
}

/// A table's text around its own longest length, then a call.
fn long_table(random: &mut Random) -> Vec<u8> {
    let length = TEXT + random.place(5) - 2;
    let text = b"4\n".iter().chain(b"1 1\n".iter().cycle());
    let mut text: Vec<u8> = text.copied().take(length).collect();
    if let Some(last) = text.last_mut() {
        *last = b'\n';
    }
    [&text[..], DIVIDER, b"look 1 0\n"].concat()
}
