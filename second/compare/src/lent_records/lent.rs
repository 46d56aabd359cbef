//! All that is lent to a call on a record, with the bytes in front of each.

use super::asked::Asked;
use super::layout;
use crate::calls::call::Answer;
use crate::pattern::{filled, BEFORE};
use second::choice::Choice;
use second::host::start_bytes;
use second::listing::list_into;

/// Bytes of the numbers that calls answer in: a choice and a deadline are the longest.
const FIRST: usize = 24;
const SECOND: usize = 8;

pub struct Lent {
    front: Vec<u8>,
    pub record: Vec<u8>,
    /// A table, or a buffer.
    bytes: Vec<u8>,
    first: Vec<u8>,
    second: Vec<u8>,
}

impl Lent {
    /// What a call is lent, filled with a pattern but for the record and a table.
    pub fn new(record: Vec<u8>, asked: &Asked, pattern: u8) -> Self {
        let after_front = |length| filled(pattern, BEFORE + length).split_off(BEFORE);
        Lent {
            front: filled(pattern, BEFORE),
            record,
            bytes: match asked {
                Asked::List { room } => after_front(*room),
                Asked::Call(_) => Vec::new(),
                Asked::Start { table, .. } => table.clone(),
            },
            first: after_front(FIRST),
            second: after_front(SECOND),
        }
    }

    /// Makes the call on what is lent.
    pub fn ask(&mut self, asked: &Asked) -> Result<(), u32> {
        match asked {
            Asked::List { .. } => {
                let record = layout::record(&self.record);
                let length = list_into(&record, &mut self.bytes)? as u64;
                put(&mut self.first, &[length]);
            }
            Asked::Call(call) => {
                let mut record = layout::record(&self.record);
                let answer = call.make(&mut record);
                // Refused, the record is what it was.
                self.record = layout::bytes(&record);
                self.answer(&answer?);
            }
            Asked::Start { cores, table } => {
                let mut record = layout::record(&self.record);
                start_bytes(&mut record, *cores, table)?;
                self.record = layout::bytes(&record);
            }
        }
        Ok(())
    }

    /// Puts a call's answer in the numbers.
    fn answer(&mut self, answer: &Answer) {
        match *answer {
            Answer::Released { core, deadline } => {
                put(&mut self.first, &[core]);
                put(&mut self.second, &[deadline]);
            }
            Answer::Finished { late } => put(&mut self.first, &[late as u64]),
            Answer::Looked(choice) => put(&mut self.first, &numbers(choice)),
        }
    }

    /// Everything, each with the bytes in front of it.
    pub fn bytes(&self) -> Vec<u8> {
        let parts = [&self.record, &self.bytes, &self.first, &self.second];
        parts.map(|part| [&self.front[..], part].concat()).concat()
    }
}

/// A choice's kind, task and deadline.
pub fn numbers(choice: Choice) -> [u64; 3] {
    match choice {
        Choice::Idle => [0; 3],
        Choice::Fixed { task, deadline } => [1, task, deadline],
        Choice::Mover {
            task,
            deadline,
            upper,
        } => [if upper { 3 } else { 2 }, task, deadline],
    }
}

/// Puts numbers at the end of what is lent.
fn put(lent: &mut [u8], numbers: &[u64]) {
    let bytes: Vec<u8> = numbers.iter().flat_map(|n| n.to_le_bytes()).collect();
    let start = lent.len() - bytes.len();
    lent[start..].copy_from_slice(&bytes);
}
