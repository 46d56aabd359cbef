//! Days for the program `rehearse`: a table's text, a line with the stop, then arrivals.

mod days;
mod draft;
mod far;
mod fault;
mod stop;
mod stop_line;
mod table;
mod words;

use crate::batch::Batch;
use crate::random::Random;
use crate::texts::{self, damage};
use draft::Draft;
use second::rehearse::rehearse;

/// One day and its answer.
pub fn batch(random: &mut Random) -> Batch {
    let input = any(random);
    let answer = rehearse(&input);
    let lines = answer.split_inclusive(|&byte| byte == b'\n');
    let met = lines.map(|line| texts::refusal(Some(line))).collect();
    Batch::single(input, answer, met)
}

/// An input: many are rehearsed; the others are so drawn that a short run meets every refusal, alone and before others.
fn any(random: &mut Random) -> Vec<u8> {
    match random.below(50) {
        0..=11 => {
            let mut draft = Draft::any(random);
            draft.text = table::refused(random);
            with_later_faults(random, draft)
        }
        12..=16 => {
            let mut draft = Draft::any(random);
            unreadable(random, &mut draft);
            with_later_faults(random, draft)
        }
        17..=19 => {
            let mut draft = Draft::any(random);
            draft.line = stop_line::over(random);
            with_later_faults(random, draft)
        }
        20..=27 => faulty(random),
        28 | 29 => {
            let input = Draft::any(random).input();
            damage::spoil(random, input)
        }
        30 if random.one_in(2) => far::input(random),
        _ => Draft::any(random).input(),
    }
}

/// Faults behind the one that decides, in every other input.
fn with_later_faults(random: &mut Random, mut draft: Draft) -> Vec<u8> {
    if random.one_in(4) {
        draft.line = stop_line::over(random);
    }
    if random.one_in(3) {
        fault::put(random, &mut draft);
    }
    draft.input()
}

/// A table's text or a stop's line that can't be read.
fn unreadable(random: &mut Random, draft: &mut Draft) {
    match random.below(3) {
        0 => draft.text = table::unreadable(random),
        1 => stop_line::spoil(random, draft),
        _ => draft.text = table::long(random),
    }
}

/// One faulty arrival or several, rarely without the last newline.
fn faulty(random: &mut Random) -> Vec<u8> {
    let mut draft = Draft::any(random);
    fault::put(random, &mut draft);
    if random.one_in(4) {
        fault::put(random, &mut draft);
    }
    let mut input = draft.input();
    if random.one_in(10) {
        input.pop();
    }
    input
}
