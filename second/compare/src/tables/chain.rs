//! Chains of movers: one heavy task fills most of each core, the others move through what is left.

use super::fit::{divisors, Room};
use super::table::Table;
use crate::random::Random;
use second::limits::TASKS;

pub fn table(random: &mut Random) -> Table {
    let cores = random.pick(&[16, 16, 16, 8, 4, 3, 2]);
    let common = random.pick(&[6, 16, 60, 64, 97, 360, 5_040, 720_720, 1_000_000]);
    let mut room = Room::new(cores, common);
    let least = common * random.between(10, 19) / 20;
    if random.one_in(2) {
        even(random, &mut room, cores, least);
    } else {
        uneven(random, &mut room, cores, least);
    }
    Table {
        cores: cores as u32,
        numbers: room.finish(),
    }
}

/// As much left on every core, and movers that are a little too heavy for it: each crosses to the next core.
fn even(random: &mut Random, room: &mut Room, cores: u64, fixed: u64) {
    for _ in 0..cores {
        room.add(fixed, room.common);
    }
    let left = room.common - fixed;
    while room.rest > 0 && room.tasks() < TASKS {
        let over = random.between(1, 1 + left / cores);
        room.add((left + over).min(fixed), room.common);
    }
}

/// Something else left on each core, and movers of several weights, some over many cores.
fn uneven(random: &mut Random, room: &mut Room, cores: u64, least: u64) {
    for _ in 0..cores {
        room.add(random.between(least, room.common), room.common);
    }
    let periods = divisors(room.common);
    // A mover weighs no more than the fixed tasks, or it would stand among them.
    let most = random.pick(&[least / 8, least / 2, least]).max(1);
    while room.rest > 0 && room.tasks() < TASKS {
        let period = random.pick(&periods);
        let unit = room.common / period;
        let cost = random.between(most / 2 / unit, most / unit);
        room.add(cost.clamp(1, period), period);
    }
}
