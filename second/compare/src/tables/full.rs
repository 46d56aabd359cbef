//! Boxes that are full to the last unit, and boxes with one unit over.

use super::fit::{divisors, Room};
use super::table::Table;
use crate::random::Random;

/// Tasks of a table at most.
const TASKS: usize = second::limits::TASKS;

pub fn table(random: &mut Random) -> Table {
    let cores = random.between(1, 16);
    let common = random.pick(&[1, 2, 3, 6, 10, 12, 30, 97, 1_000, 999_999, 1_000_000]);
    let periods = divisors(common);
    let mut room = Room::new(cores, common);
    let free = random.place(TASKS - cores as usize - 1);
    let heavy = random.one_in(2);
    room.add_some(random, free as u64, &periods, heavy);
    while room.rest > 0 {
        room.add(common, common);
    }
    if random.one_in(3) {
        one_over(&mut room);
    }
    Table {
        cores: cores as u32,
        numbers: room.finish(),
    }
}

/// Adds a task of one unit to a full box.
fn one_over(room: &mut Room) {
    room.rest = 1;
    room.add(1, room.common);
}
