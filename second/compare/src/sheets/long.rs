//! Sheets at the longest length and around it; each has more jobs than are taken.

use super::draft::Draft;
use super::names;
use crate::random::Random;
use second::limits::SHEET;

/// The shortest last job, `zzz,1,1` and a newline, and one with all digits.
const LAST: std::ops::RangeInclusive<usize> = 8..=36;

pub fn draft(random: &mut Random) -> Draft {
    let tick = random.pick(&["1", "1000"]).to_string();
    let length = random.pick(&[SHEET - 1, SHEET, SHEET, SHEET + 1, SHEET + 1, SHEET + 2]);
    let mut left = length - tick.len() - 1;
    let mut jobs = Vec::new();
    while !LAST.contains(&left) {
        let cost = random.between(1, 99_999).to_string();
        let period = random.between(1, 9_999_999).to_string();
        let job = [names::short(jobs.len()), cost, period];
        left -= job.join(",").len() + 1;
        jobs.push(job);
    }
    jobs.push(last(left));
    Draft {
        cores: random.pick(&["1", "16", "17"]).to_string(),
        tick,
        jobs,
    }
}

/// A job of so many bytes with its newline.
fn last(length: usize) -> [String; 3] {
    let more = length - LAST.start();
    let (cost, period) = ("1".repeat(1 + more / 2), "1".repeat(1 + more - more / 2));
    ["zzz".to_string(), cost, period]
}
