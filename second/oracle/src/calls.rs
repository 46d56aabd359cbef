//! The calls on bytes that are lent: a refusal leaves them as they were.

use compare::lent_records::layout;
use compare::lent_records::lent::numbers;
use second::host;
use second::listing::list_into;
use second::record::Record;

pub use second::host::{admit_bytes as admit, listing_bytes as listing};

/// Makes a call on the record that bytes say, and writes what it is then unless the call is refused.
fn moved<T>(held: &mut [u8], call: impl FnOnce(&mut Record) -> Result<T, u32>) -> Result<T, u32> {
    let mut record = layout::record(held);
    let answer = call(&mut record)?;
    held.copy_from_slice(&layout::bytes(&record));
    Ok(answer)
}

pub fn start(held: &mut [u8], cores: u32, table: &[u8]) -> Result<(), u32> {
    moved(held, |record| host::start_bytes(record, cores, table))
}

/// The run's core and deadline.
pub fn release(held: &mut [u8], task: u64, time: u64) -> Result<(u64, u64), u32> {
    moved(held, |record| record.release(task, time))
}

/// The time less the run's deadline.
pub fn finish(held: &mut [u8], task: u64, time: u64) -> Result<i64, u32> {
    moved(held, |record| record.finish(task, time))
}

/// The choice's kind, task and deadline.
pub fn look(held: &mut [u8], core: u64, time: u64) -> Result<[u64; 3], u32> {
    moved(held, |record| record.look(core, time).map(numbers))
}

/// The listing's length.
pub fn list(held: &[u8], buffer: &mut [u8]) -> Result<usize, u32> {
    list_into(&layout::record(held), buffer)
}
