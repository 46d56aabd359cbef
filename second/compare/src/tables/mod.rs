//! Random tables, each sort in a file of its own.

mod chain;
mod fault;
mod fit;
mod full;
mod light;
mod limit;
mod shared;
mod single;
mod small;
pub mod table;

use crate::random::Random;
use table::Table;

/// Tables that are taken, or just not: every fault is one of weights or common period.
const GOOD: [fn(&mut Random) -> Table; 9] = [
    small::table,
    small::table,
    limit::within,
    limit::over,
    shared::table,
    chain::table,
    full::table,
    light::table,
    single::table,
];

/// A table of any sort.
pub fn any(random: &mut Random) -> Table {
    if random.one_in(4) {
        faulty(random)
    } else {
        readable(random)
    }
}

/// A table with a fault in a task, in its size or in its core count.
pub fn faulty(random: &mut Random) -> Table {
    let table = readable(random);
    fault::spoil(random, table)
}

/// A table of tasks in range.
pub fn readable(random: &mut Random) -> Table {
    random.pick(&GOOD)(random)
}

/// A table that is taken.
pub fn taken(random: &mut Random) -> Table {
    loop {
        let table = readable(random);
        if second::plan::admit(table.cores, &table.numbers).is_ok() {
            return table;
        }
    }
}
