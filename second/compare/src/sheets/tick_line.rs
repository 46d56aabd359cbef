//! The line `names TICK` between a table and its names, and inputs where it is wrong.

use super::head;
use super::request::Request;
use crate::random::Random;

/// Lines in its place.
const LINES: [&str; 16] = [
    "",
    "names",
    "names\n",
    "names ",
    "names \n",
    "names 1000",
    "names  1000\n",
    "names 1000 \n",
    "names 1000\r\n",
    " names 1000\n",
    "Names 1000\n",
    "name 1000\n",
    "names\t1000\n",
    "namess 1000\n",
    "names names 1000\n",
    "\u{feff}names 1000\n",
];

/// The line missing, odd, or there twice.
pub fn spoil(random: &mut Random, request: &mut Request) {
    match random.below(8) {
        0 => {
            request.line.clear();
            request.names.clear();
        }
        1 => request.line = format!("names {}\n{}", head::tick(random), request.line),
        2 => request.names.push(request.line.trim_end().to_string()),
        3 => early(random, request),
        4 | 5 => request.line = format!("names {}\n", head::tick(random)),
        _ => request.line = random.pick(&LINES).to_string(),
    }
}

/// The line before some line of the table too.
fn early(random: &mut Random, request: &mut Request) {
    let ends = request.text.iter().enumerate();
    let ends = ends.filter(|(_, &byte)| byte == b'\n');
    let starts: Vec<usize> = [0].into_iter().chain(ends.map(|(at, _)| at + 1)).collect();
    let (before, after) = request.text.split_at(random.pick(&starts));
    request.text = [before, request.line.as_bytes(), after].concat();
}
