//! From no job to as many as a sheet has room for.

use super::draft::Draft;
use super::names;
use crate::random::Random;

/// As many jobs have room with names that are repeated.
const MOST: usize = 682;
/// As many have room with names of their own.
const NAMED: usize = 588;
const NUMBERS: [usize; 14] = [
    0,
    0,
    1,
    63,
    64,
    64,
    65,
    65,
    66,
    100,
    300,
    NAMED,
    NAMED + 1,
    MOST,
];

pub fn draft(random: &mut Random) -> Draft {
    let any = random.place(MOST + 1);
    let listed = random.pick(&NUMBERS);
    let number = random.pick(&[listed, listed, any]);
    let period = if number > 300 { "1" } else { "1000" };
    let job = |place: usize| {
        let name = if number > NAMED { place % 26 } else { place };
        [names::short(name), "1".to_string(), period.to_string()]
    };
    Draft {
        cores: random.pick(&["1", "1", "16", "0"]).to_string(),
        tick: "1".to_string(),
        jobs: (0..number).map(job).collect(),
    }
}
