//! A rehearsal that skips the ticks in which nothing comes, ends or becomes ready.

use crate::choices::{scan, Choices, Lower, Scan};
use crate::day::Day;
use crate::diary::{Diary, Span, Spans};
use crate::limits::{CORES, TASKS};
use crate::record::Record;
use crate::work::Work;

struct Skipping<'a> {
    day: &'a Day,
    record: Record,
    lower: Lower,
    works: [Work; TASKS],
    spans: Spans,
    /// The arrivals before this place are taken.
    next: usize,
    diary: Diary,
}

/// The text of a day.
pub fn run(day: &Day) -> Vec<u8> {
    let mut skipping = Skipping {
        day,
        record: day.record.clone(),
        lower: Lower::of(&day.record),
        works: [Work::default(); TASKS],
        spans: [None; CORES],
        next: 0,
        diary: Diary::new(day.arrivals.len()),
    };
    let mut now = 0;
    while now < day.stop {
        now = skipping.step(now);
    }
    skipping.turn_spans(&[None; CORES], now);
    skipping.diary.stop(now);
    skipping.list_unfinished();
    skipping.diary.into_text()
}

impl Skipping<'_> {
    /// Does what is due at an instant, runs until the next one with its finishes, and answers that.
    fn step(&mut self, now: u64) -> u64 {
        self.release(now);
        // The looks of an instant set the clock, whether or not something came.
        self.record.clock = now;
        let scan = scan(&self.record, &self.lower);
        self.turn_spans(&scan.chosen, now);
        let until = self.quiet_until(&scan, now);
        self.run(&scan.chosen, until - now);
        self.finish(&scan.chosen, until);
        until
    }

    /// Takes the arrivals of an instant.
    fn release(&mut self, now: u64) {
        while let Some(arrival) = self.day.arrivals.get(self.next) {
            if arrival.time > now {
                break;
            }
            self.next += 1;
            match self.record.release_sound(arrival.task, now) {
                Ok(_) => self.works[arrival.task as usize - 1].accept(arrival.length),
                Err(no) => self.diary.refused(no, self.next, arrival.task, now),
            }
        }
    }

    /// Writes the spans that new choices end, and begins theirs.
    fn turn_spans(&mut self, chosen: &Choices, now: u64) {
        for (core, &chosen) in chosen.iter().enumerate() {
            let run = chosen.map(|index| (index, self.works[index].oldest()));
            let was = self.spans[core];
            if run == was.map(|span| (span.index, span.run)) {
                continue;
            }
            if let Some(span) = was {
                self.diary.span(core, &span, now);
            }
            let from = now;
            self.spans[core] = run.map(|(index, run)| Span { index, run, from });
        }
    }

    /// The stop, the next arrival, the first finish of a choice or the next release time of a stored run.
    fn quiet_until(&self, scan: &Scan, now: u64) -> u64 {
        let mut until = self.day.stop.min(scan.ahead);
        if let Some(arrival) = self.day.arrivals.get(self.next) {
            until = until.min(arrival.time);
        }
        for &index in scan.chosen.iter().flatten() {
            until = until.min(now + self.works[index].left());
        }
        until
    }

    /// Gives each choice so many ticks.
    fn run(&mut self, chosen: &Choices, ticks: u64) {
        for &index in chosen.iter().flatten() {
            self.works[index].had += ticks;
        }
    }

    /// Finishes the choices that are done, by rising core.
    fn finish(&mut self, chosen: &Choices, now: u64) {
        for (core, &index) in chosen.iter().enumerate() {
            let Some(index) = index else { continue };
            let work = &mut self.works[index];
            if work.left() > 0 {
                continue;
            }
            let late = self.record.finish_sound(index as u64 + 1, now);
            let late = late.expect("a choice is not held, and time does not fall");
            self.diary.finish(core, index, work.oldest(), now, late);
            work.finish();
        }
    }

    fn list_unfinished(&mut self) {
        for index in 0..self.record.count as usize {
            let (state, work) = (&self.record.states[index], &self.works[index]);
            for place in 0..state.unfinished as usize {
                let (run, task) = (state.runs[place], index as u64 + 1);
                let had = if place == 0 { work.had } else { 0 };
                let (number, length) = (work.oldest() + place as u64, work.length(place));
                self.diary
                    .unfinished([task, number, run.core, run.deadline, had, length]);
            }
        }
    }
}
