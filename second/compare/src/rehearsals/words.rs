//! Words that are no numbers of a rehearsal, and lines that are no arrivals.

use crate::random::Random;

const NUMBERS: [&str; 18] = [
    "",
    "00",
    "01",
    "000000000000001",
    "0000000000000001",
    "1000000000000000",
    "9999999999999999",
    "18446744073709551617",
    "-1",
    "-0",
    "+1",
    " 1",
    "1\r",
    "1\0",
    "1.0",
    "1e3",
    "x",
    ":",
];
const LINES: [&str; 22] = [
    "\n",
    " \n",
    "0\n",
    "0 1\n",
    "0 1 \n",
    "0 1 1 \n",
    " 0 1 1\n",
    "0  1 1\n",
    "0 1  1\n",
    "0 1 1 1\n",
    "0\t1 1\n",
    "0,1,1\n",
    "0 1 1\r\n",
    "0 1 1\0\n",
    "0 1 1\n\n",
    "release 1 0\n",
    "rehearse 10\n",
    "stop 4\n",
    "16\n",
    "1 1\n",
    "\u{feff}0 1 1\n",
    "k\u{e4}\n",
];

/// A word that is no number.
pub fn odd_number(random: &mut Random) -> &'static str {
    random.pick(&NUMBERS)
}

/// An arrival's line that can't be read: one of a list, or three words with an odd one.
pub fn odd_line(random: &mut Random, line: &str) -> String {
    if random.one_in(2) {
        return random.pick(&LINES).to_string();
    }
    let mut words: Vec<&str> = line.trim_end().split(' ').collect();
    let place = random.place(words.len());
    words[place] = odd_number(random);
    words.join(" ") + "\n"
}
