//! What lent_records.c should answer to a record and its frames, or would with a fault in the product.

use crate::early::Asked;
use crate::input::Input;
use compare::lent_records::layout::{self, RECORD};
use second::choice::Choice;
use second::host::start_bytes;
use second::listing::list_into;

/// All that is lent, without the bytes in front.
struct Lent {
    record: Vec<u8>,
    bytes: Vec<u8>,
    first: Vec<u8>,
    second: Vec<u8>,
}

pub fn answers(input: &[u8], fault: &str) -> Vec<u8> {
    let mut input = Input(input);
    let mut record = input.bytes(RECORD).to_vec();
    let mut answers = Vec::new();
    while !input.is_empty() {
        frame(&mut input, &mut record, fault, &mut answers);
    }
    answers
}

fn frame(input: &mut Input, record: &mut Vec<u8>, fault: &str, answers: &mut Vec<u8>) {
    let [call, kept, place, width, length, pattern, _null] = [(); 7].map(|()| input.number(4));
    let [value, number, time] = [(); 3].map(|()| input.number(8));
    let filled = |from: u64, to: u64| (from..to).map(|place| (pattern + place) as u8).collect();
    let mut lent = Lent {
        record: record.clone(),
        bytes: match call {
            4 => input.bytes(length as usize).to_vec(),
            _ => filled(64, 64 + length),
        },
        first: filled(64, 88),
        second: filled(64, 72),
    };
    for byte in 0..width {
        lent.record[(place + byte) as usize] = (value >> (8 * byte)) as u8;
    }
    let before = lent.record.clone();
    let right = lent.make(call, number, time).err().unwrap_or(0);
    let refused = lent.spoil_early(fault, [call, number, time], &before, right);
    match refused {
        0 => lent.spoil_taken(fault, call, before),
        _ => lent.spoil_refused(fault, call, time),
    }
    answers.extend(refused.to_le_bytes());
    let front: Vec<u8> = filled(0, 64);
    for part in [&lent.record, &lent.bytes, &lent.first, &lent.second] {
        answers.extend(front.iter().chain(part));
    }
    if kept > 0 {
        *record = lent.record;
    }
}

impl Lent {
    fn make(&mut self, call: u64, number: u64, time: u64) -> Result<(), u32> {
        let mut record = layout::record(&self.record);
        match call {
            0 => {
                let length = list_into(&record, &mut self.bytes)?;
                self.first[16..].copy_from_slice(&length.to_le_bytes());
            }
            1 => {
                let (core, deadline) = record.release(number, time)?;
                self.first[16..].copy_from_slice(&core.to_le_bytes());
                self.second.copy_from_slice(&deadline.to_le_bytes());
            }
            2 => {
                let late = record.finish(number, time)?;
                self.first[16..].copy_from_slice(&late.to_le_bytes());
            }
            3 => {
                let choice = three(record.look(number, time)?).map(u64::to_le_bytes);
                self.first.copy_from_slice(choice.as_flattened());
            }
            _ => start_bytes(&mut record, number as u32, &self.bytes)?,
        }
        self.record = layout::bytes(&record);
        Ok(())
    }

    /// The named fault in a call on a sound record: its refusal, or its choice.
    fn spoil_early(&mut self, fault: &str, asked: [u64; 3], before: &[u8], right: u32) -> u32 {
        let [call, number, time] = asked;
        let record = layout::record(before);
        if !(1..=3).contains(&call) || !record.sound() {
            return right;
        }
        let asked = Asked {
            record,
            call,
            number,
            time,
        };
        if let ("chosen_while_held", 3, 0) = (fault, call, right) {
            let choice = asked.unheld().map_or([0; 3], three);
            let choice = choice.map(u64::to_le_bytes);
            self.first.copy_from_slice(choice.as_flattened());
        }
        asked.refused(fault, right)
    }

    /// The named fault in a call that was taken.
    fn spoil_taken(&mut self, fault: &str, call: u64, before: Vec<u8>) {
        match (fault, call) {
            ("old_record", _) => self.record = before,
            ("swapped", 3) if self.first[0] > 1 => self.first[0] ^= 1,
            ("past_listing", 0) => {
                let length = layout::read(&self.first[16..]) as usize;
                if let Some(past) = self.bytes.get_mut(length) {
                    *past ^= 1;
                }
            }
            _ => {}
        }
    }

    /// The named fault in a call that was refused.
    fn spoil_refused(&mut self, fault: &str, call: u64, time: u64) {
        match (fault, call) {
            ("stored_on_refusal", 1..=3) => {
                let mut record = layout::record(&self.record);
                record.clock = time;
                self.record = layout::bytes(&record);
            }
            ("deadline_on_refusal", 1) => self.second.fill(0),
            ("emptied_on_refusal", 4) => self.record.fill(0),
            ("length_on_refusal", 0) => self.first[16..].fill(0),
            _ => {}
        }
    }
}

/// A choice's kind, task and deadline.
fn three(choice: Choice) -> [u64; 3] {
    match choice {
        Choice::Idle => [0, 0, 0],
        Choice::Fixed { task, deadline } => [1, task, deadline],
        Choice::Mover {
            task,
            deadline,
            upper,
        } => [if upper { 3 } else { 2 }, task, deadline],
    }
}
