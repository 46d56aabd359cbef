//! The day that is rehearsed: its ticks are milliseconds, its arrivals as many as are taken, its box the full one.

use crate::boxes::{full, Bench, Chance};

/// A day's ticks.
pub const STOP: u64 = 86_400_000;
pub const ARRIVALS: u64 = 4_096;

/// An arrival's time, task and length.
type Arrival = (u64, u64, u64);

/// The input of `rehearse`.
pub fn day() -> String {
    written(&full(), STOP, &arrivals(&full()))
}

/// The same box with stop 0 and no arrival: what starting a program and planning take.
pub fn empty() -> String {
    written(&full(), 0, &[])
}

fn written(bench: &Bench, stop: u64, arrivals: &[Arrival]) -> String {
    let mut text = bench.text() + &format!("rehearse {stop}\n");
    for (time, task, length) in arrivals {
        text += &format!("{time} {task} {length}\n");
    }
    text
}

/// Arrivals all over the day: of every four two come alone, one with the one before it, one soon after that as the same task's.
fn arrivals(bench: &Bench) -> Vec<Arrival> {
    let mut chance = Chance(7);
    let mut arrivals: Vec<Arrival> = Vec::new();
    let mut last = (0, 1);
    for number in 0..ARRIVALS {
        let any = 1 + chance.below(bench.tasks());
        let (time, task) = match number % 4 {
            0 | 1 => (chance.below(STOP), any),
            2 => (last.0, any),
            _ => (last.0 + chance.below(1_000), last.1),
        };
        last = (time, task);
        arrivals.push((time, task, length(&mut chance, bench, task)));
    }
    arrivals.sort_by_key(|&(time, ..)| time);
    arrivals
}

/// The whole cost as often as any length.
fn length(chance: &mut Chance, bench: &Bench, task: u64) -> u64 {
    let cost = u64::from(bench.table[2 * (task as usize - 1)]);
    if chance.below(2) == 0 {
        cost
    } else {
        1 + chance.below(cost)
    }
}

#[cfg(test)]
mod tests {
    use super::*;
    use second::rehearse::rehearse;

    /// Lines that start with a word.
    fn count(text: &str, word: &str) -> usize {
        text.lines().filter(|line| line.starts_with(word)).count()
    }

    #[test]
    fn the_day_is_rehearsed_whole() {
        let answer = String::from_utf8(rehearse(day().as_bytes())).expect("text");
        let told = ["finish ", "span ", "refused ", "stop ", "unfinished "];
        assert_eq!(
            told.map(|word| count(&answer, word)),
            [4_093, 4_167, 0, 1, 3]
        );
        let box_text = full().text();
        assert_eq!(day().lines().count(), box_text.lines().count() + 1 + 4_096);
    }

    #[test]
    fn nothing_is_rehearsed() {
        assert_eq!(rehearse(empty().as_bytes()), b"stop 0\n");
    }
}
