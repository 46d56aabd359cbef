//! The text listing of a plan or record.

use crate::bounds;
use crate::plan::Plan;
use crate::record::Record;
use crate::refusal;
use crate::task::Task;
use std::fmt;

/// What a listing is made from.
struct Listing<'a> {
    cores: u64,
    common: u64,
    tasks: &'a [Task],
}

/// The listing of a record, or refusal 15.
pub fn listing(record: &Record) -> Result<Vec<u8>, u32> {
    if !record.sound() {
        return Err(refusal::UNSOUND);
    }
    let listing = Listing {
        cores: record.cores,
        common: record.common,
        tasks: &record.tasks[..record.count as usize],
    };
    Ok(listing.to_string().into_bytes())
}

/// The listing of a plan.
pub fn of_plan(plan: &Plan) -> Vec<u8> {
    let listing = Listing {
        cores: plan.cores,
        common: plan.common,
        tasks: &plan.tasks,
    };
    listing.to_string().into_bytes()
}

/// Writes a record's listing to a lent buffer and answers its length, or refusal 15 or 14.
pub fn list_into(record: &Record, buffer: &mut [u8]) -> Result<usize, u32> {
    place(&listing(record)?, buffer)
}

/// Copies a listing to the front of a buffer and answers its length, or refusal 14.
pub fn place(listing: &[u8], buffer: &mut [u8]) -> Result<usize, u32> {
    if listing.len() > buffer.len() {
        return Err(refusal::BUFFER_SHORT);
    }
    buffer[..listing.len()].copy_from_slice(listing);
    Ok(listing.len())
}

impl fmt::Display for Listing<'_> {
    fn fmt(&self, f: &mut fmt::Formatter) -> fmt::Result {
        writeln!(f, "cores {} common {}", self.cores, self.common)?;
        let late = bounds::late(self.common, self.tasks);
        for (index, (task, late)) in self.tasks.iter().zip(late).enumerate() {
            write!(f, "task {} {task}", index + 1)?;
            writeln!(f, " late {late}")?;
        }
        Ok(())
    }
}

impl fmt::Display for Task {
    fn fmt(&self, f: &mut fmt::Formatter) -> fmt::Result {
        write!(f, "cost {} period {}", self.cost, self.period)?;
        let kind = if self.moves() { "moves" } else { "fixed" };
        write!(f, " weight {} {kind}", self.weight)?;
        for (core, &share) in self.shares.iter().enumerate() {
            if share > 0 {
                write!(f, " {}:{share}", core + 1)?;
            }
        }
        Ok(())
    }
}
