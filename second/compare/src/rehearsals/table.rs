//! Tables' texts before the stop's line that are refused.

use crate::random::Random;
use crate::tables::{self, table::Table};
use crate::texts::{self, write};
use second::limits::TEXT;
use second::plan::admit;
use second::text::read_text;

/// A text that planning refuses; each of its refusals as often.
pub fn refused(random: &mut Random) -> Vec<u8> {
    let no = random.between(1, 6) as u32;
    loop {
        let table = match no {
            5 | 6 => tables::readable(random),
            _ => tables::faulty(random),
        };
        let text = write::text(&table);
        if refusal(&text) == Some(no) {
            return text;
        }
    }
}

/// Planning's refusal of a text that can be read.
fn refusal(text: &[u8]) -> Option<u32> {
    let (cores, numbers) = read_text(text).ok()?;
    admit(cores, &numbers).err().map(|refusal| refusal.no)
}

/// A text that can't be read.
pub fn unreadable(random: &mut Random) -> Vec<u8> {
    loop {
        let text = texts::any(random);
        if read_text(&text).is_err() {
            return text;
        }
    }
}

/// A text around its longest length.
pub fn long(random: &mut Random) -> Vec<u8> {
    let length = random.pick(&[TEXT - 1, TEXT, TEXT + 1, TEXT + 1, TEXT + 2, 3 * TEXT]);
    let cores = random.pick(&["1\n", "16\n", "17\n", "x\n"]);
    let tasks = (length - cores.len()) / 4;
    let mut text = cores.to_string() + &"1 1\n".repeat(tasks - 1);
    // The last task takes what is left: a period of one to four digits.
    text += &format!("1 {}\n", "1".repeat(length - text.len() - 3));
    text.into_bytes()
}

/// Tables that have shown something: a mover on two cores, the document's list, a backlog that grows.
const KNOWN: [(u32, &[u32]); 4] = [
    (2, &[2, 3, 2, 3, 2, 3]),
    (4, &[5, 6, 4, 6, 2, 3, 2, 3, 2, 3, 1, 2]),
    (2, &[8, 12, 2, 3, 24, 36]),
    (1, &[1, 2]),
];

/// A table that is taken.
pub fn taken(random: &mut Random) -> Table {
    if random.one_in(6) {
        let (cores, numbers) = random.pick(&KNOWN);
        let numbers = numbers.to_vec();
        return Table { cores, numbers };
    }
    tables::taken(random)
}
