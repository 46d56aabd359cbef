//! A record with its bytes.

use super::layout;
use second::record::Record;

pub struct Held {
    pub record: Record,
    pub bytes: Vec<u8>,
}

impl Held {
    pub fn of(record: Record) -> Self {
        let bytes = layout::bytes(&record);
        Held { record, bytes }
    }

    /// The record that any bytes say.
    pub fn read(bytes: Vec<u8>) -> Self {
        let record = layout::record(&bytes);
        Held { record, bytes }
    }
}
