//! The second program's rounds, each the same as in `rounds.c`, on its own record in place.

use crate::boxes::Call;
use crate::rounds::{Rounds, Timed};
use second::choice::Choice;
use second::host::{admit_bytes, start_bytes};
use second::listing::list_into;
use second::record::Record;
use std::hint::black_box;
use std::time::Instant;

/// A buffer of this many bytes is enough for any listing.
const LISTING: usize = 15_960;

/// Makes the laps of one round after the other.
fn laps(of: &Rounds, mut round: impl FnMut() -> u64) -> Timed {
    let (mut least, mut sum) = (u64::MAX, 0u64);
    for _ in 0..of.laps {
        let start = Instant::now();
        for _ in 0..of.rounds {
            sum = sum.wrapping_add(black_box(round()));
        }
        least = least.min(start.elapsed().as_nanos() as u64);
    }
    Timed {
        nanoseconds: least,
        sum,
    }
}

/// One call; every call of the benchmark is accepted.
fn make(held: &mut Record, &(kind, number, time): &Call) -> u64 {
    match kind {
        'r' => {
            let (core, deadline) = held.release(number, time).expect("a release");
            core + deadline
        }
        'f' => held.finish(number, time).expect("a finish") as u64,
        _ => match held.look(number, time).expect("a look") {
            Choice::Idle => 0,
            Choice::Fixed { task, deadline } => task + deadline,
            Choice::Mover { task, deadline, .. } => task + deadline,
        },
    }
}

/// Makes calls, each on the record that the one before left.
fn make_all(held: &mut Record, calls: &[Call]) -> u64 {
    calls
        .iter()
        .fold(0, |sum, call| sum.wrapping_add(make(held, call)))
}

/// Plans the table into the record.
fn plan_round(held: &mut Record, cores: u32, table: &[u8]) -> u64 {
    start_bytes(held, cores, table).expect("the table is taken");
    held.common
}

/// Lists the record.
fn list_round(held: &Record, buf: &mut [u8]) -> u64 {
    list_into(held, buf).expect("a listing") as u64
}

/// A look at core 0, which is refused straight after the soundness test.
fn sound_round(held: &mut Record) -> u64 {
    let answer = held.look(black_box(0), held.clock);
    u64::from(answer.expect_err("there is no core 0"))
}

/// Times rounds of a kind.
pub fn time(of: &Rounds) -> Timed {
    let (cores, table) = (of.bench.cores, of.bench.bytes());
    let first = Record::fresh(cores, &of.bench.table).expect("the table is taken");
    let mut held = first.clone();
    make_all(&mut held, &of.calls);
    let mut buf = [0; LISTING];
    match of.kind {
        'e' => laps(of, || 0),
        'p' => laps(of, || plan_round(&mut held, cores, black_box(&table))),
        'a' => laps(of, || admit_bytes(cores, black_box(&table)).into()),
        'l' => laps(of, || list_round(black_box(&held), &mut buf)),
        's' => laps(of, || sound_round(black_box(&mut held))),
        _ => laps(of, || {
            held.clone_from(black_box(&first));
            make_all(&mut held, black_box(&of.calls))
        }),
    }
}
