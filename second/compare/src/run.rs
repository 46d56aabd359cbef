//! Shares the time out over the kinds that are asked, on every processor there is.

use crate::kinds::KINDS;
use crate::options::Options;
use crate::random::Random;
use crate::save::{self, Found};
use crate::tally::Tally;
use std::io;
use std::num::NonZero;
use std::sync::{Mutex, MutexGuard};
use std::thread;
use std::time::Instant;

/// What a run came to.
#[derive(Default)]
pub struct Outcome {
    pub tallies: [Tally; KINDS.len()],
    pub differences: u64,
}

/// What the workers share.
struct Shared<'a> {
    options: &'a Options,
    end: Instant,
    outcome: Mutex<Outcome>,
}

/// Asks until the time is over or something differs.
pub fn run(options: &Options) -> io::Result<Outcome> {
    let shared = Shared {
        options,
        end: Instant::now() + options.time(),
        outcome: Mutex::default(),
    };
    let workers = thread::available_parallelism().map_or(1, NonZero::get);
    thread::scope(|scope| {
        let started: Vec<_> = (0..workers)
            .map(|_| scope.spawn(|| shared.work()))
            .collect();
        started
            .into_iter()
            .try_for_each(|worker| worker.join().expect("a worker ends"))
    })?;
    Ok(shared.outcome.into_inner().expect("no worker failed"))
}

impl Shared<'_> {
    fn outcome(&self) -> MutexGuard<'_, Outcome> {
        self.outcome.lock().expect("no worker failed")
    }

    /// Takes batch after batch; each kind is asked at least once, however short the time.
    fn work(&self) -> io::Result<()> {
        while let Some((kind, number)) = self.next() {
            self.ask(kind, number)?;
        }
        Ok(())
    }

    /// The kind that has had the least time, and the number of its next batch.
    fn next(&self) -> Option<(usize, u64)> {
        let mut outcome = self.outcome();
        if outcome.differences > 0 {
            return None;
        }
        let asked = (0..KINDS.len()).filter(|&kind| self.options.asks(&KINDS[kind]));
        let kind = asked.min_by_key(|&kind| {
            let tally = &outcome.tallies[kind];
            (tally.batches > 0, tally.spent)
        })?;
        let tally = &mut outcome.tallies[kind];
        if Instant::now() >= self.end && tally.batches > 0 {
            return None;
        }
        tally.batches += 1;
        Some((kind, tally.batches))
    }

    /// Asks both the same and compares.
    fn ask(&self, kind: usize, number: u64) -> io::Result<()> {
        let start = Instant::now();
        let mut random = Random::of_batch(self.options.seed, kind, number);
        let batch = (KINDS[kind].batch)(&mut random);
        let program = KINDS[kind].programs[batch.program];
        let command = &self.options.commands[program];
        let said = batch.read(command.ask(batch.input())?);
        let found = Found::of(&batch, said);
        let mut outcome = self.outcome();
        match &found {
            None => outcome.tallies[kind].add(&batch),
            Some(found) => {
                outcome.differences += 1;
                let name = KINDS[kind].name;
                save::save(self.options.seed, name, number, &batch, found)?;
                println!("  it was asked of {program}");
            }
        }
        outcome.tallies[kind].spent += start.elapsed();
        Ok(())
    }
}
