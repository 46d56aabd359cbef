//! A record that calls reach, or one made by hand; often bent, and then not always sound.

use super::{bend, made, reach};
use crate::random::Random;
use second::record::Record;

pub fn record(random: &mut Random) -> Record {
    let mut record = match random.below(3) {
        0 => made::record(random),
        _ => reach::record(random),
    };
    for _ in 0..random.pick(&[0, 0, 1, 2, 6]) {
        let mut bent = record.clone();
        bend::bend(random, &mut bent);
        if bent.sound() || random.one_in(3) {
            record = bent;
        }
    }
    record
}
