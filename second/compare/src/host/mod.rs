//! Byte tables and buffers for the host's two calls that ask of a table.

pub mod buffer;
pub mod bytes;
mod frame;

use crate::batch::{Batch, Case};
use crate::random::Random;
use frame::Frame;
use second::host::listing_bytes;

/// Frames of a process.
const FRAMES: usize = 200;

/// Frames, each with both calls' answers.
pub fn batch(random: &mut Random) -> Batch {
    Batch {
        cases: (0..FRAMES).map(|_| case(random)).collect(),
        ..Batch::default()
    }
}

fn case(random: &mut Random) -> Case {
    let (cores, table) = bytes::table(random);
    let listing = listing_bytes(cores, &table, &mut [0; buffer::ENOUGH]);
    let room = buffer::length(random, usize::try_from(listing).unwrap_or(0));
    let frame = Frame {
        cores,
        table,
        room,
        pattern: random.number() as u8,
        null: random.one_in(2),
    };
    let answer = frame.answer();
    Case {
        input: frame.input(),
        met: vec![answer.admitted, answer.refused()],
        answer: answer.bytes,
    }
}
