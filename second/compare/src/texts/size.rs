//! Texts at the longest length and around it, and the shortest ones.

use crate::random::Random;
use second::limits::TEXT;

/// Lines that such a text is filled with.
const LINES: [&str; 8] = [
    "1 1\n",
    "1 1000000\n",
    "4294967295 4294967295\n",
    "1\n",
    "\n",
    "0",
    "1",
    " ",
];

/// A text filled with one line over and over, cut to its length or ended with a newline there.
pub fn text(random: &mut Random) -> Vec<u8> {
    let near = TEXT as u64;
    let length = match random.below(6) {
        0 => random.below(3),
        1 => random.between(near - 3, near - 1),
        2 => near,
        3 | 4 => near + 1,
        _ => random.between(near + 2, 3 * near),
    };
    let line = random.pick(&LINES).as_bytes();
    let mut text = b"16\n".to_vec();
    text.extend(line.iter().cycle().take(length as usize));
    text.truncate(length as usize);
    if let (true, Some(last)) = (random.one_in(2), text.last_mut()) {
        *last = b'\n';
    }
    text
}
