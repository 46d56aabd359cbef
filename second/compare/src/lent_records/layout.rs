//! A record as the bytes of the header's struct, which has no padding, and back.

use second::record::Record;

/// The bytes of a record.
pub const RECORD: usize = 14_616;

/// The record's bytes; every number must fit its width.
pub fn bytes(record: &Record) -> Vec<u8> {
    let mut bytes = Vec::with_capacity(RECORD);
    each(&mut record.clone(), |width, number| {
        let all = number.to_le_bytes();
        let (own, above) = all.split_at(width);
        assert!(above.iter().all(|&byte| byte == 0), "{number} is too wide");
        bytes.extend(own);
    });
    bytes
}

/// The record that the bytes say.
pub fn record(bytes: &[u8]) -> Record {
    let mut record = Record::empty();
    let mut rest = bytes;
    each(&mut record, |width, number| {
        let (own, after) = rest.split_at(width);
        *number = read(own);
        rest = after;
    });
    record
}

/// The number of a few bytes, least first.
pub fn read(bytes: &[u8]) -> u64 {
    let bytes = bytes.iter().rev();
    bytes.fold(0, |number, &byte| number << 8 | u64::from(byte))
}

/// Shows every number with its width in bytes, in the header's order.
fn each(record: &mut Record, mut show: impl FnMut(usize, &mut u64)) {
    show(4, &mut record.cores);
    show(4, &mut record.common);
    show(8, &mut record.count);
    for task in &mut record.tasks {
        show(4, &mut task.cost);
        show(4, &mut task.period);
        show(4, &mut task.weight);
        for share in &mut task.shares {
            show(4, share);
        }
    }
    show(8, &mut record.clock);
    for state in &mut record.states {
        show(8, &mut state.last);
        for run in &mut state.runs {
            show(8, &mut run.deadline);
        }
        for count in &mut state.counts {
            show(4, count);
        }
        show(4, &mut state.place);
        for run in &mut state.runs {
            show(1, &mut run.core);
        }
        show(2, &mut state.unfinished);
        show(2, &mut state.had);
    }
}
