//! Costs and periods at the limits of what is taken, in one job of a sheet.

use super::draft::Draft;
use super::words;
use crate::random::Random;
use second::limits::PERIOD;

/// What 32 bits would cut away, in ticks.
const CUT: u64 = 1 << 32;

/// Puts such a number into one job.
pub fn put(random: &mut Random, draft: &mut Draft) {
    if draft.jobs.is_empty() {
        return;
    }
    let place = random.place(draft.jobs.len());
    let tick = draft.tick.parse().unwrap_or(1);
    let [_, cost, period] = &mut draft.jobs[place];
    let nanoseconds = |word: &str| word.parse().unwrap_or(1);
    let (old_cost, old_period) = (nanoseconds(cost), nanoseconds(period));
    match random.below(8) {
        0 => *cost = words::digits(random),
        1 => *period = words::digits(random),
        2 | 3 => *period = around(random, PERIOD * tick, tick),
        4 => *cost = around(random, old_period / tick * tick, tick),
        5 => *cost = (old_cost + wraps(random, tick)).to_string(),
        6 => *period = (old_period + wraps(random, tick)).to_string(),
        _ => {
            let number = random.pick(&[0, CUT * tick, CUT * tick + old_period]);
            let word = if random.one_in(2) { cost } else { period };
            *word = around(random, number, tick);
        }
    }
}

/// A number, or one that is a nanosecond or a tick off.
fn around(random: &mut Random, number: u64, tick: u64) -> String {
    let off = random.pick(&[0, 0, 1, tick - 1, tick, tick + 1]);
    let below = number.saturating_sub(off);
    random.pick(&[number + off, below]).to_string()
}

/// Ticks that 32 bits would cut to nothing, in nanoseconds.
fn wraps(random: &mut Random, tick: u64) -> u64 {
    random.between(1, 3) * CUT * tick
}
