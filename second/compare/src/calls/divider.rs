//! The line `calls` between table and calls, and inputs where it is wrong.

use crate::random::Random;

pub const DIVIDER: &[u8] = b"calls\n";

/// The line missing, repeated, written otherwise, or last.
pub fn spoil(random: &mut Random, input: &[u8]) -> Vec<u8> {
    let at = input
        .windows(DIVIDER.len())
        .position(|part| part == DIVIDER);
    let at = at.expect("a good input has the divider");
    let (before, after) = (&input[..at], &input[at + DIVIDER.len()..]);
    let written: &[u8] = random.pick(&[
        b"".as_slice(),
        b"\n",
        b"calls\r\n",
        b"calls \n",
        b" calls\n",
        b"Calls\n",
        b"call\n",
        b"callss\n",
        b"calls\ncalls\n",
    ]);
    match random.below(6) {
        0 => [before, DIVIDER].concat(),
        1 => [before, b"calls"].concat(),
        2 => before.to_vec(),
        3 => [DIVIDER, before, DIVIDER, after].concat(),
        _ => [before, written, after].concat(),
    }
}
