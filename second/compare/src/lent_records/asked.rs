//! What is asked of a lent record: one of the five calls, with its numbers.

use super::held::Held;
use super::spoil::Spoilt;
use super::values;
use crate::calls::around;
use crate::calls::call::{Call, Name, NAMES};
use crate::calls::due::oldest;
use crate::host::{buffer, bytes};
use crate::random::Random;
use second::listing::listing;
use second::record::Record;

pub enum Asked {
    List { room: usize },
    Call(Call),
    Start { cores: u32, table: Vec<u8> },
}

impl Asked {
    /// Any call, with numbers around those of the record that is lent.
    pub fn any(random: &mut Random, held: &Held, spoilt: Spoilt) -> Self {
        let lent = spoilt.of(held);
        // What an unsound record says is no measure, and it is refused anyway.
        let record = if lent.sound() { &lent } else { &held.record };
        match random.below(13) {
            0 => Asked::start(random),
            1..=3 => Asked::list(random, record),
            4..=6 => match around::call(random, record) {
                Some(call) => Asked::Call(call),
                None => Asked::call(random, record, spoilt),
            },
            _ => Asked::call(random, record, spoilt),
        }
    }

    /// A call with any numbers, for a record that may say anything.
    pub fn odd(random: &mut Random) -> Self {
        match random.below(2) {
            0 => Asked::List { room: 100 },
            _ => Asked::Call(Call {
                name: random.pick(&NAMES),
                number: random.any_length(),
                time: random.any_length(),
            }),
        }
    }

    pub fn start(random: &mut Random) -> Self {
        let (cores, table) = bytes::table(random);
        Asked::Start { cores, table }
    }

    /// A listing, with a buffer around its length.
    pub fn list(random: &mut Random, record: &Record) -> Self {
        let length = listing(record).map_or(0, |listing| listing.len());
        let room = buffer::length(random, length);
        Asked::List { room }
    }

    fn call(random: &mut Random, record: &Record, spoilt: Spoilt) -> Self {
        let name = random.pick(&NAMES);
        let number = values::number(random, record, spoilt.task());
        let known = (1..=record.count).contains(&number);
        let task = if known { number } else { 1 };
        let time = values::time(random, record, task, spoilt.value);
        // A look is often at the core of the run that the time is for.
        let number = match oldest(record, task) {
            Some((_, core)) if name == Name::Look && random.one_in(2) => core,
            _ => number,
        };
        Asked::Call(Call { name, number, time })
    }
}
