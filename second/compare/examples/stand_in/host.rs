//! What host.c should answer to its frames.

use crate::input::Input;
use second::host::{admit_bytes, listing_bytes};

pub fn answers(input: &[u8]) -> Vec<u8> {
    let mut input = Input(input);
    let mut answers = Vec::new();
    while !input.is_empty() {
        frame(&mut input, &mut answers);
    }
    answers
}

fn frame(input: &mut Input, answers: &mut Vec<u8>) {
    let cores = input.number(4) as u32;
    let (table, room) = (input.number(4) as usize, input.number(4) as usize);
    let (pattern, _null) = (input.number(4), input.number(4));
    let table = input.bytes(table);
    let filled = |place: u64| (pattern + place) as u8;
    let before: Vec<u8> = (0..64).map(filled).collect();
    let mut buffer: Vec<u8> = (64..64 + room as u64).map(filled).collect();
    answers.extend(admit_bytes(cores, table).to_le_bytes());
    answers.extend(listing_bytes(cores, table, &mut buffer).to_le_bytes());
    for part in [&before, table, &before, &buffer] {
        answers.extend(part);
    }
}
