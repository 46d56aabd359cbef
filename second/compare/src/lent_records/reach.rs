//! A record that calls from a fresh plan reach.

use crate::calls::pace::Pace;
use crate::calls::{first, sequence};
use crate::random::Random;
use crate::tables;
use second::record::Record;

pub fn record(random: &mut Random) -> Record {
    let table = tables::taken(random);
    let record = Record::fresh(table.cores, &table.numbers);
    let mut record = record.expect("the table is taken");
    let pace = Pace::new(random, record.common);
    for call in first::calls(random, &record, &pace) {
        let _ = call.make(&mut record);
    }
    let calls = random.pick(&[0, 10, 100, 500, 2_000]);
    for _ in 0..calls {
        let _ = sequence::next(random, &record, &pace).make(&mut record);
    }
    record
}
