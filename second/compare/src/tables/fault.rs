//! Faults put into a table: in its numbers, in its size, in the core count.

use super::table::Table;
use crate::random::Random;

const CORES: [u32; 6] = [0, 17, 18, 32, 256, u32::MAX];
const PERIODS: [u32; 5] = [0, 1_000_001, 1_000_002, 1 << 31, u32::MAX];

/// Puts in one fault, or several of several kinds.
pub fn spoil(random: &mut Random, mut table: Table) -> Table {
    for _ in 0..random.pick(&[1, 1, 2, 3]) {
        match random.below(10) {
            0 | 1 => table.cores = random.pick(&CORES),
            2 | 3 => spoil_size(random, &mut table.numbers),
            _ => spoil_task(random, &mut table.numbers),
        }
    }
    table
}

/// Cost 0, a period out of range, or a cost above the period, in one task.
fn spoil_task(random: &mut Random, numbers: &mut [u32]) {
    let tasks = numbers.len() / 2;
    if tasks == 0 {
        return;
    }
    let task = random.place(tasks) * 2;
    let (cost, period) = (task, task + 1);
    match random.below(6) {
        0 => numbers[cost] = 0,
        1 => numbers[period] = random.pick(&PERIODS),
        2 => numbers[period] = 1_000_000,
        3 => numbers[cost] = random.pick(&[1_000_001, u32::MAX]),
        _ => numbers[cost] = numbers[period].saturating_add(1),
    }
}

/// Empty, odd, sixty-five tasks or more.
fn spoil_size(random: &mut Random, numbers: &mut Vec<u32>) {
    match random.below(5) {
        0 => numbers.clear(),
        1 => numbers.push(random.pick(&[0, 1, u32::MAX])),
        2 => drop(numbers.pop()),
        _ => {
            let tasks = random.pick(&[65, 65, 66, 100]);
            while numbers.len() < 2 * tasks {
                numbers.extend([1, 1_000]);
            }
        }
    }
}
