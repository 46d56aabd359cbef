//! Records lent to the host's calls by lent_records.c.

mod apart;
mod asked;
mod base;
mod bend;
mod early;
pub mod field;
mod held;
mod in_turn;
mod lack;
pub mod layout;
pub mod lent;
mod made;
mod question;
mod reach;
mod spoil;
mod values;

use crate::batch::Batch;
use crate::random::Random;

/// A record, then questions of it, apart or in turn.
pub fn batch(random: &mut Random) -> Batch {
    match random.below(3) {
        0 => in_turn::batch(random),
        _ => apart::batch(random),
    }
}
