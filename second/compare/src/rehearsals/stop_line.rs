//! The line `rehearse STOP` between a table and its arrivals, and inputs where it is wrong.

use super::draft::Draft;
use super::words;
use crate::random::Random;
use second::limits::CLOCK;

/// Lines in its place, none of its form.
const LINES: [&str; 20] = [
    "",
    "\n",
    "rehearse",
    "rehearse\n",
    "rehearse ",
    "rehearse \n",
    "rehearse 10",
    "rehearse  10\n",
    "rehearse 10 \n",
    "rehearse 10\r\n",
    "rehearse 10 10\n",
    " rehearse 10\n",
    "Rehearse 10\n",
    "rehearses 10\n",
    "rehears 10\n",
    "rehearse\t10\n",
    "rehearse10\n",
    "rehearse rehearse 10\n",
    "calls\n",
    "\u{feff}rehearse 10\n",
];

/// A stop above the clock's limit: by one, as far as can be read, or anywhere between.
pub fn over(random: &mut Random) -> String {
    let most = 999_999_999_999_999;
    let any = random.between(CLOCK + 1, most);
    format!(
        "rehearse {}\n",
        random.pick(&[CLOCK + 1, CLOCK + 1, most, any])
    )
}

/// The line missing, odd, behind an odd one, or in the table too.
pub fn spoil(random: &mut Random, draft: &mut Draft) {
    match random.below(8) {
        0 => {
            draft.line.clear();
            draft.arrivals.clear();
        }
        1 => {
            draft.line.pop();
            draft.arrivals.clear();
        }
        2 => early(random, draft),
        3 => draft.line = format!("rehearse {}\n{}", words::odd_number(random), draft.line),
        4 | 5 => draft.line = format!("rehearse {}\n", words::odd_number(random)),
        _ => draft.line = random.pick(&LINES).to_string(),
    }
}

/// The line, or an odd one, before some line of the table.
fn early(random: &mut Random, draft: &mut Draft) {
    let line = random.pick(&[draft.line.as_str(), "rehearse 01\n", "rehearse\n"]);
    let ends = draft.text.iter().enumerate();
    let ends = ends.filter(|(_, &byte)| byte == b'\n');
    let starts: Vec<usize> = [0].into_iter().chain(ends.map(|(at, _)| at + 1)).collect();
    let (before, after) = draft.text.split_at(random.pick(&starts));
    draft.text = [before, line.as_bytes(), after].concat();
}
