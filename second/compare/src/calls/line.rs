//! Lines that are no calls, or only just, among lines that are.

use crate::random::Random;

const LINES: [&str; 36] = [
    "",
    " ",
    "calls",
    "calls ",
    "call",
    "release",
    "release 1",
    "release 1 ",
    "release  1 0",
    "release 1  0",
    " release 1 0",
    "release 1 0 ",
    "release 1 0 0",
    "Release 1 0",
    "releases 1 0",
    "releas 1 0",
    "release\t1 0",
    "release 1 0\r",
    "release 1 0\0",
    "release 01 0",
    "release 1 00",
    "release -1 0",
    "release 1 -1",
    "finish 1 x",
    "finish 1 0.5",
    "finish1 0",
    "finish 1 1000000000000000",
    "finish 1000000000000000 1",
    "finish 999999999999999 999999999999999",
    "finish 1 18446744073709551616",
    "look 1 999999999999999",
    "look 4294967297 0",
    "look 1 1000000000001",
    "look 0 0",
    "1 1",
    "16",
];

/// Puts such a line before any line, or in the place of one.
pub fn put(random: &mut Random, input: Vec<u8>) -> Vec<u8> {
    let ends = input.iter().enumerate();
    let ends = ends.filter(|(_, &byte)| byte == b'\n');
    let starts: Vec<usize> = [0].into_iter().chain(ends.map(|(at, _)| at + 1)).collect();
    let place = random.place(starts.len());
    let start = starts[place];
    let replace = random.one_in(3) && place + 1 < starts.len();
    let after = if replace { starts[place + 1] } else { start };
    let end = if random.one_in(10) { "" } else { "\n" };
    let line = format!("{}{end}", random.pick(&LINES));
    [&input[..start], line.as_bytes(), &input[after..]].concat()
}
