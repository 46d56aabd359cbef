//! Words that are no numbers of a text, or only just, in the place of one that is.

use crate::random::Random;

/// Numbers at the ends of what can be read, and beyond.
const NUMBERS: [&str; 12] = [
    "0",
    "1",
    "16",
    "17",
    "1000000",
    "1000001",
    "4294967294",
    "4294967295",
    "4294967296",
    "4294967297",
    "9999999999",
    "18446744073709551617",
];
/// What is no number, or a number and something more.
const WORDS: [&str; 22] = [
    "00",
    "01",
    "0000000001",
    "00000000000",
    "-1",
    "-0",
    "+1",
    "",
    " ",
    "  ",
    "\t",
    "\r",
    "\0",
    "\n",
    "\n\n",
    "1 ",
    " 1",
    "1\r",
    "1.0",
    "1e3",
    "0x1",
    "1_000",
];

/// Puts an odd word for a number of the text, or between two.
pub fn put(random: &mut Random, text: Vec<u8>) -> Vec<u8> {
    let number = number_at(random.place(text.len()), &text);
    let word = match random.below(2) {
        0 => random.pick(&NUMBERS),
        _ => random.pick(&WORDS),
    };
    // A word put before a number makes it one with zeros or signs in front.
    let after = if random.one_in(4) {
        number.start
    } else {
        number.end
    };
    [&text[..number.start], word.as_bytes(), &text[after..]].concat()
}

/// The digits around a place, or nothing after it.
fn number_at(place: usize, text: &[u8]) -> std::ops::Range<usize> {
    let digit = |byte: &&u8| byte.is_ascii_digit();
    let before = text[..place].iter().rev().take_while(digit).count();
    let after = text[place..].iter().take_while(digit).count();
    place - before..place + after
}
