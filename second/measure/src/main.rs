//! `measure ROUNDS` times the product's rounds, which a command makes, against the second program's, in one run;
//! `measure rehearsal FOLDER OURS SECOND` two commands on a day, which it puts into a folder; `measure day` writes that day.
#![forbid(unsafe_code)]

mod boxes;
mod day;
mod ours;
mod rehearsal;
mod rounds;
mod theirs;

use boxes::{full, sized, Bench};
use rehearsal::{Rehearsal, Words};
use rounds::Rounds;
use std::path::Path;

/// How often each figure is taken. All are taken in turn, so that a busy minute of the machine spoils no figure whole, and the least is shown.
const TIMES: usize = 15;

/// A figure: its name, the rounds that are timed, those whose time is taken off, and how many operations that leaves to a round.
struct Figure<'a> {
    name: String,
    timed: Rounds<'a>,
    less: Rounds<'a>,
    operations: usize,
    times: Vec<[Time; 2]>,
}

/// Nanoseconds of a round, and of the round that is taken off it.
struct Time(f64, f64);

/// Nanoseconds of a round, of ours and of the second program.
fn both(command: &[String], of: &Rounds) -> [f64; 2] {
    let (ours, theirs) = (ours::time(command, of), theirs::time(of));
    assert_eq!(ours.sum, theirs.sum, "answers of kind {}", of.kind);
    [ours, theirs].map(|timed| timed.nanoseconds as f64 / of.rounds as f64)
}

impl Figure<'_> {
    /// Takes it once.
    fn take(&mut self, command: &[String]) {
        let (timed, less) = (both(command, &self.timed), both(command, &self.less));
        self.times
            .push([0, 1].map(|side| Time(timed[side], less[side])));
    }

    /// Nanoseconds of one operation.
    fn each(&self, time: &Time) -> f64 {
        (time.0 - time.1) / self.operations as f64
    }

    /// Of the least times of one side.
    fn least(&self, side: usize) -> f64 {
        self.each(&Time(
            least_of(self.times.iter().map(|both| both[side].0)),
            least_of(self.times.iter().map(|both| both[side].1)),
        ))
    }

    /// The line of its least times, with the spread of the ratio.
    fn show(&self) {
        let times = self.times.iter();
        let ratios = times.map(|[ours, theirs]| self.each(ours) / self.each(theirs));
        show(&self.name, [0, 1].map(|side| self.least(side)), ratios);
    }
}

/// A line `name ours second ratio`, with the spread of the ratio.
fn show(name: &str, [ours, second]: [f64; 2], ratios: impl Iterator<Item = f64> + Clone) {
    println!(
        "{name} {ours:.0} {second:.0} {:.2} ({:.2} to {:.2})",
        ours / second,
        least_of(ratios.clone()),
        -least_of(ratios.map(|ratio| -ratio)),
    );
}

/// The line of a rehearsal's least times.
fn show_rehearsal(figure: &Rehearsal) {
    let times = figure.times.iter();
    let least = [0, 1].map(|side| least_of(times.clone().map(|both| both[side])));
    show(
        figure.name,
        least,
        times.map(|[ours, second]| ours / second),
    );
}

fn least_of(times: impl Iterator<Item = f64>) -> f64 {
    times.fold(f64::INFINITY, f64::min)
}

/// Every figure of a box, with a word after its name: its operation alone, without the loop and the copy of a fresh record.
fn figures<'a>(bench: &'a Bench, word: &str) -> Vec<Figure<'a>> {
    let of = |kind, rounds, calls| Rounds {
        bench,
        kind,
        laps: 40,
        rounds,
        calls,
    };
    let one = |kind| [kind, 'e'].map(|kind| of(kind, 50, bench.releases(2)));
    let calls = |calls, less| [calls, less].map(|calls| of('c', 1, calls));
    [
        ("plan", one('p')),
        ("admission", one('a')),
        ("listing", one('l')),
        ("soundness", one('s')),
        ("release", calls(bench.releases(8), Vec::new())),
        ("finish", calls(bench.finishes(8), bench.releases(8))),
        ("look", calls(bench.looks(512), bench.releases(2))),
    ]
    .into_iter()
    .map(|(name, [timed, less])| Figure {
        name: format!("{name}{word}"),
        operations: (timed.calls.len() - less.calls.len()).max(1),
        timed,
        less,
        times: Vec::new(),
    })
    .collect()
}

/// Times rounds on every box.
fn measure_rounds(command: &[String]) {
    let sizes = [(8, 16), (16, 16), (32, 16), (64, 2), (64, 4), (64, 8)];
    let mut boxes = vec![(full(), String::new())];
    boxes.extend(sizes.map(|(tasks, cores)| {
        let word = format!("_{tasks}_tasks_{cores}_cores");
        (sized(tasks, cores), word)
    }));
    let mut all: Vec<Figure> = boxes
        .iter()
        .flat_map(|(bench, word)| figures(bench, word))
        .collect();
    for _ in 0..TIMES {
        all.iter_mut().for_each(|figure| figure.take(command));
    }
    println!("name ours_ns second_ns ratio (spread)");
    all.iter().for_each(Figure::show);
}

/// Times both programs' rehearsals.
fn measure_rehearsals(folder: &str, programs: [&str; 2]) {
    let programs = programs.map(words);
    let mut all = rehearsal::figures(Path::new(folder));
    for _ in 0..TIMES {
        all.iter_mut().for_each(|figure| figure.take(&programs));
    }
    all.iter().for_each(show_rehearsal);
}

/// The words of a command, separated by blanks.
fn words(command: &str) -> Words {
    command.split_whitespace().map(str::to_string).collect()
}

fn main() {
    let given: Vec<String> = std::env::args().skip(1).collect();
    let given: Vec<&str> = given.iter().map(String::as_str).collect();
    match given[..] {
        ["day"] => print!("{}", day::day()),
        ["rehearsal", folder, ours, second] => measure_rehearsals(folder, [ours, second]),
        [rounds] => measure_rounds(&words(rounds)),
        _ => panic!("usage: measure ROUNDS | rehearsal FOLDER OURS SECOND | day"),
    }
}
