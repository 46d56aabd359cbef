//! Small common periods, where ties of weights and loads are frequent.

use super::fit::{divisors, Room};
use super::table::Table;
use crate::random::Random;

pub fn table(random: &mut Random) -> Table {
    let common = random.between(1, 60);
    let periods = divisors(common);
    let cores = random.between(1, 16);
    let mut room = Room::new(cores, common);
    let heavy = random.one_in(2);
    // Some boxes are offered more than they hold.
    room.rest += random.pick(&[0, 0, 0, 1, common]);
    let number = random.between(1, 64);
    room.add_some(random, number, &periods, heavy);
    Table {
        cores: cores as u32,
        numbers: room.finish(),
    }
}
