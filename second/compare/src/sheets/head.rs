//! First lines that can't be read or are out of range, or only just not.

use super::words;
use crate::random::Random;

const CORES: [&str; 14] = [
    "0",
    "1",
    "16",
    "17",
    "01",
    "",
    " 1",
    "1 ",
    "1\r",
    "+1",
    "\u{feff}1",
    "4294967295",
    "4294967296",
    "4294967297",
];
const TICKS: [&str; 9] = [
    "0",
    "1",
    "999999",
    "1000000",
    "1000001",
    "01000",
    "1000,",
    "\u{feff}1000",
    "4294968296",
];

/// A line in the place of the core count.
pub fn cores(random: &mut Random) -> String {
    random.pick(&CORES).to_string()
}

/// A line in the place of the tick length.
pub fn tick(random: &mut Random) -> String {
    match random.below(3) {
        0 => words::number(random),
        _ => random.pick(&TICKS).to_string(),
    }
}
