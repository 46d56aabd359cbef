//! Sheets for the programs `sheet` and `table`, and tables with names for `office`.

mod draft;
mod edge;
mod head;
mod lines;
mod long;
mod many;
mod names;
mod office;
mod reading;
mod request;
mod rounding;
mod tick_line;
mod ticks;
mod words;
mod written;

use crate::batch::Batch;
use crate::random::Random;
use crate::texts;
use second::sheets;

pub const PROGRAMS: [&str; 3] = ["sheet", "table", "office"];
const SHEET: usize = 0;
const TABLE: usize = 1;
const OFFICE: usize = 2;

/// Bytes that do damage to a line, or only just do not.
const BYTES: &[u8] = b"0123456789,,,\n\n\r\t \0-+.;\"'`az{@AZ[/:\x7f\x80\xef\xff";

/// One input of one program, and its answer.
pub fn batch(random: &mut Random) -> Batch {
    match random.below(10) {
        0..=3 => case(SHEET, sheets::sheet, reading::input(random)),
        4 | 5 => case(TABLE, sheets::table, reading::input(random)),
        6 | 7 => case(OFFICE, second::office::office, office::input(random)),
        8 => written::by_product(random),
        _ => written::by_second(random),
    }
}

/// An input with what the second program answers in a program's place.
fn case(program: usize, second: fn(&[u8]) -> Vec<u8>, input: Vec<u8>) -> Batch {
    let answer = second(&input);
    answered(program, input, answer)
}

/// An input with its answer, whose first line tells a refusal.
fn answered(program: usize, input: Vec<u8>, answer: Vec<u8>) -> Batch {
    let met = texts::refusal(answer.split(|&byte| byte == b'\n').next());
    Batch {
        program,
        ..Batch::single(input, answer, vec![met])
    }
}
