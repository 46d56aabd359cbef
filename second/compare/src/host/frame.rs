//! A frame as host.c reads it, and the frame that it should answer.

use crate::pattern::{filled, BEFORE};
use second::host::{admit_bytes, listing_bytes};

pub struct Frame {
    pub cores: u32,
    pub table: Vec<u8>,
    /// The buffer's length.
    pub room: usize,
    /// The first byte that lent memory is filled with.
    pub pattern: u8,
    /// Whether a pointer is null where its length is 0.
    pub null: bool,
}

pub struct Answer {
    pub admitted: u32,
    pub listed: i64,
    pub bytes: Vec<u8>,
}

impl Frame {
    /// Five numbers, then the table.
    pub fn input(&self) -> Vec<u8> {
        let numbers = [
            self.cores,
            self.table.len() as u32,
            self.room as u32,
            u32::from(self.pattern),
            u32::from(self.null),
        ];
        let mut bytes: Vec<u8> = numbers.iter().flat_map(|n| n.to_le_bytes()).collect();
        bytes.extend(&self.table);
        bytes
    }

    /// Both answers, then the table and the buffer with the bytes in front of each.
    pub fn answer(&self) -> Answer {
        let mut buffer = filled(self.pattern, BEFORE + self.room);
        let admitted = admit_bytes(self.cores, &self.table);
        let listed = listing_bytes(self.cores, &self.table, &mut buffer[BEFORE..]);
        let parts = [
            &admitted.to_le_bytes()[..],
            &listed.to_le_bytes(),
            &filled(self.pattern, BEFORE),
            &self.table,
            &buffer,
        ];
        Answer {
            admitted,
            listed,
            bytes: parts.concat(),
        }
    }
}

impl Answer {
    /// The listing's refusal, or 0.
    pub fn refused(&self) -> u32 {
        u32::try_from(-self.listed).unwrap_or(0)
    }
}
