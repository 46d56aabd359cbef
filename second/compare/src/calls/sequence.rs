//! Long sequences of calls, most of them sensible on the record so far.

use super::call::Call;
use super::pace::Pace;
use super::{around, first, odd, sensible};
use crate::random::Random;
use crate::tables::table::Table;
use second::record::Record;

/// The next call on a record.
pub fn next(random: &mut Random, record: &Record, pace: &Pace) -> Call {
    if random.one_in(pace.odd) {
        return odd::call(random, record);
    }
    let around = match random.below(10) < pace.around {
        true => around::call(random, record),
        false => None,
    };
    around.unwrap_or_else(|| sensible::call(random, record, pace))
}

/// Adds lines of calls on a table's record until the input has so many bytes.
pub fn extend(random: &mut Random, table: &Table, input: &mut Vec<u8>, length: usize) {
    let record = Record::fresh(table.cores, &table.numbers);
    let mut record = record.expect("the table is taken");
    let mut pace = Pace::new(random, record.common);
    let mut calls = first::calls(random, &record, &pace).into_iter();
    while input.len() < length {
        let call = calls.next();
        let call = call.unwrap_or_else(|| next(random, &record, &pace));
        input.extend(call.line().bytes());
        // A refused call is part of the sequence like any other.
        let _ = call.make(&mut record);
        if random.one_in(100) {
            pace = Pace::new(random, record.common);
        }
    }
}
