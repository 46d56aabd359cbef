//! A question of lent_records.c: a record spoilt or not, then a call.

use super::asked::Asked;
use super::held::Held;
use super::lent::Lent;
use super::spoil::Spoilt;
use crate::batch::Case;
use crate::calls::call::Name;
use crate::random::Random;

pub struct Question {
    pub spoilt: Spoilt,
    pub asked: Asked,
    /// Whether the next question is of the record after this one.
    pub kept: bool,
    /// The first byte that lent memory is filled with.
    pattern: u8,
    /// Whether a pointer is null where its length is 0.
    null: bool,
}

impl Question {
    pub fn new(random: &mut Random, spoilt: Spoilt, asked: Asked, kept: bool) -> Self {
        Question {
            spoilt,
            asked,
            kept,
            pattern: random.number() as u8,
            null: random.one_in(2),
        }
    }

    /// The question and its answer, and the record after it.
    pub fn case(&self, held: &Held) -> (Case, Vec<u8>) {
        let mut record = held.bytes.clone();
        self.spoilt.put(&mut record);
        let mut lent = Lent::new(record, &self.asked, self.pattern);
        let refused = lent.ask(&self.asked).err().unwrap_or(0);
        let case = Case {
            input: self.input(),
            answer: [&refused.to_le_bytes()[..], &lent.bytes()].concat(),
            met: vec![refused],
        };
        (case, lent.record)
    }

    /// Seven numbers of 32 bits, three of 64, then the table.
    fn input(&self) -> Vec<u8> {
        let (call, length, number, time, table) = self.call();
        let words = [
            call,
            u32::from(self.kept),
            self.spoilt.place as u32,
            self.spoilt.width as u32,
            length as u32,
            u32::from(self.pattern),
            u32::from(self.null),
        ];
        let numbers = [self.spoilt.value, number, time];
        let mut bytes: Vec<u8> = words.iter().flat_map(|n| n.to_le_bytes()).collect();
        bytes.extend(numbers.iter().flat_map(|n| n.to_le_bytes()));
        bytes.extend(table);
        bytes
    }

    /// The call, the length of its table or buffer, its number and time, and its table.
    fn call(&self) -> (u32, usize, u64, u64, &[u8]) {
        match &self.asked {
            Asked::List { room } => (0, *room, 0, 0, &[]),
            Asked::Call(call) => {
                let name = match call.name {
                    Name::Release => 1,
                    Name::Finish => 2,
                    Name::Look => 3,
                };
                (name, 0, call.number, call.time, &[])
            }
            Asked::Start { cores, table } => (4, table.len(), u64::from(*cores), 0, table),
        }
    }
}
