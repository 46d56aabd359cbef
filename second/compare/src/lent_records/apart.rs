//! Questions apart: each spoils the same record in another way.

use super::asked::Asked;
use super::base;
use super::held::Held;
use super::lack::Lack;
use super::question::Question;
use super::spoil::Spoilt;
use crate::batch::{Batch, Case};
use crate::random::Random;

pub fn batch(random: &mut Random) -> Batch {
    let mut record = base::record(random);
    let lack = random.one_in(3).then(|| Lack::take(random, &mut record));
    let held = Held::of(record);
    let cases = (0..length(&held, lack)).map(|_| case(random, &held, lack));
    Batch {
        cases: cases.collect(),
        head: held.bytes,
        ..Batch::default()
    }
}

/// An unsound record is not asked for long, since few numbers make it sound again.
fn length(held: &Held, lack: Option<Lack>) -> usize {
    match (lack, held.record.sound()) {
        (Some(_), _) => 100,
        (_, true) => 300,
        _ => 20,
    }
}

/// A question that spoils anything, or one that makes up for what lacks.
fn case(random: &mut Random, held: &Held, lack: Option<Lack>) -> Case {
    let spoilt = match lack {
        Some(lack) if !random.one_in(4) => lack.repaired(random, held),
        _ => Spoilt::new(random, held),
    };
    let asked = Asked::any(random, held, spoilt);
    Question::new(random, spoilt, asked, false).case(held).0
}
