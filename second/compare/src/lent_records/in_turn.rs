//! Questions in turn: what a call hands on is lent to the next, and what it refuses is lent as it was.

use super::asked::Asked;
use super::base;
use super::held::Held;
use super::layout::RECORD;
use super::question::Question;
use super::spoil::Spoilt;
use crate::batch::Batch;
use crate::calls::pace::Pace;
use crate::calls::sequence;
use crate::random::Random;

const QUESTIONS: usize = 300;

pub fn batch(random: &mut Random) -> Batch {
    let mut held = first(random);
    let mut pace = Pace::new(random, held.record.common);
    let mut batch = Batch {
        head: held.bytes.clone(),
        in_turn: true,
        ..Batch::default()
    };
    for _ in 0..QUESTIONS {
        let question = next(random, &held, &pace);
        let (case, after) = question.case(&held);
        batch.cases.push(case);
        if question.kept {
            held = Held::read(after);
        }
        if random.one_in(50) {
            pace = Pace::new(random, held.record.common);
        }
    }
    batch
}

/// A record, or bytes of any kind, which a start makes one of.
fn first(random: &mut Random) -> Held {
    if random.one_in(2) {
        return Held::of(base::record(random));
    }
    let byte = random.number() as u8;
    Held::read(match random.below(3) {
        0 => vec![0; RECORD],
        1 => vec![byte; RECORD],
        _ => (0..RECORD).map(|_| random.number() as u8).collect(),
    })
}

/// Mostly a call on the record so far; at times a listing, a start, or the record spoilt, which is rarely handed on.
fn next(random: &mut Random, held: &Held, pace: &Pace) -> Question {
    if !held.record.sound() {
        return again(random);
    }
    let chance = random.below(40);
    if chance < 4 {
        let spoilt = Spoilt::new(random, held);
        let asked = Asked::any(random, held, spoilt);
        let kept = random.one_in(4);
        return Question::new(random, spoilt, asked, kept);
    }
    let asked = match chance {
        4 => Asked::start(random),
        5 => Asked::list(random, &held.record),
        _ => Asked::Call(sequence::next(random, &held.record, pace)),
    };
    Question::new(random, Spoilt::NONE, asked, true)
}

/// An unsound record is soon started again.
fn again(random: &mut Random) -> Question {
    let asked = match random.below(3) {
        0 => Asked::odd(random),
        _ => Asked::start(random),
    };
    Question::new(random, Spoilt::NONE, asked, true)
}
