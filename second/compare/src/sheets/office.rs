//! Inputs for `office`: many are written, the others are odd in one way or several.

use super::request::Request;
use super::{lines, names, tick_line, words, BYTES};
use crate::random::Random;
use crate::tables;
use crate::texts::{self, damage};
use second::limits::TEXT;

/// Bytes of a name's line that is repeated beyond all tables.
const FAR: [usize; 3] = [5_000, 70_000, 1_100_000];

pub fn input(random: &mut Random) -> Vec<u8> {
    let mut request = base(random);
    if random.one_in(8) {
        names::repeat(random, &mut request.names.iter_mut().collect::<Vec<_>>());
    }
    if random.one_in(6) {
        spoil_names(random, &mut request.names);
    }
    if random.one_in(6) {
        tick_line::spoil(random, &mut request);
    }
    let mut input = request.input();
    if random.one_in(12) {
        input = lines::spoil(random, input);
    }
    if random.one_in(12) {
        input = damage::spoil_by(random, input, BYTES);
    }
    input
}

/// A table of any sort, one with a fault, a text of any sort, or one around its longest length.
fn base(random: &mut Random) -> Request {
    match random.below(12) {
        0 => {
            let text = texts::any(random);
            let tasks = text.iter().filter(|&&byte| byte == b'\n').count();
            Request::of(random, text, tasks.saturating_sub(1))
        }
        1 => long(random),
        2..=4 => {
            let table = tables::faulty(random);
            Request::of_table(random, &table)
        }
        _ => {
            let table = tables::any(random);
            Request::of_table(random, &table)
        }
    }
}

/// A text around its longest length, with as many names as tasks, one fewer or none.
fn long(random: &mut Random) -> Request {
    let length = random.pick(&[TEXT - 1, TEXT, TEXT, TEXT + 1, TEXT + 2]);
    let cores = random.pick(&["1\n", "16\n", "17\n"]);
    let tasks = (length - cores.len()) / 4;
    let mut text = cores.to_string() + &"1 1\n".repeat(tasks - 1);
    // The last task takes what is left: a period of one to four digits.
    text += &format!("1 {}\n", "1".repeat(length - text.len() - 3));
    let number = random.pick(&[0, tasks, tasks, tasks - 1]);
    Request::of(random, text.into_bytes(), number)
}

/// Too few, too many, or one that is odd.
fn spoil_names(random: &mut Random, names: &mut Vec<String>) {
    match random.below(8) {
        0 | 1 => drop(names.pop()),
        2 | 3 => names.push(random.pick(&["more", "a", ""]).to_string()),
        4 if random.one_in(2) => {
            let bytes = random.pick(&FAR);
            names.extend(std::iter::repeat_n("abcdefghijkl".to_string(), bytes / 13));
        }
        _ => {
            names.push(words::name(random));
            names.swap_remove(random.place(names.len()));
        }
    }
}
