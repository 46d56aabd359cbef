//! Inputs for the program `calls`: a table's text, the divider, then calls.

pub mod around;
pub mod call;
mod divider;
pub mod due;
pub mod first;
mod line;
mod long;
mod odd;
pub mod pace;
mod sensible;
pub mod sequence;

use crate::batch::Batch;
use crate::random::Random;
use crate::tables;
use crate::texts::{self, damage, write};
use divider::DIVIDER;
use second::player;

/// Lengths that an input is filled to, in bytes; few are long, since an emulator plays a thousand calls a second.
const LENGTHS: [usize; 8] = [300, 500, 1_000, 1_500, 2_500, 4_000, 8_000, 20_000];

/// One input and its answer.
pub fn batch(random: &mut Random) -> Batch {
    let input = any(random);
    let answer = player::calls(&input);
    let lines = answer.split_inclusive(|&byte| byte == b'\n');
    let met = lines.map(|line| texts::refusal(Some(line))).collect();
    Batch::single(input, answer, met)
}

/// An input: most can be read and most tables are taken, so that the calls are answered.
fn any(random: &mut Random) -> Vec<u8> {
    match random.below(40) {
        0..=5 => not_taken(random),
        6 | 7 => {
            let input = short(random);
            damage::spoil(random, input)
        }
        8..=10 => {
            let input = short(random);
            line::put(random, input)
        }
        11 | 12 => {
            let input = short(random);
            divider::spoil(random, &input)
        }
        13 => long::input(random),
        _ => {
            let length = random.pick(&LENGTHS);
            played(random, length)
        }
    }
}

/// A good input of a few lines, so that damage is met anywhere in it.
fn short(random: &mut Random) -> Vec<u8> {
    let length = random.pick(&[60, 300, 1_000]);
    played(random, length)
}

/// A table that is taken and calls up to a length.
fn played(random: &mut Random, length: usize) -> Vec<u8> {
    let table = tables::taken(random);
    let mut input = [&write::text(&table)[..], DIVIDER].concat();
    sequence::extend(random, &table, &mut input, length);
    input
}

/// A table or text of any sort before calls that can be read.
fn not_taken(random: &mut Random) -> Vec<u8> {
    let text = match random.below(2) {
        0 => texts::any(random),
        _ => write::text(&tables::faulty(random)),
    };
    [&text[..], DIVIDER, b"look 1 0\nrelease 1 5\n"].concat()
}
