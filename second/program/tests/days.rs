//! Random days: skipping is ticking, and what every day's text promises.
#![forbid(unsafe_code)]

mod common;

use common::{table, Random};
use second::arrival::Arrival;
use second::day::Day;
use second::limits::CLOCK;
use second::record::Record;
use second::{skipping, ticking};
use std::collections::BTreeMap;

/// How a day's arrivals come: ticks between two at most, how often one is of the same task, how often of full cost.
struct Pace {
    gap: u64,
    same: u64,
    full: u64,
}

/// A short day on a small table.
fn day(random: &mut Random) -> Day {
    let most = *random.pick(&[3, 8, 30]);
    let (cores, table) = table(random, most);
    let record = Record::fresh(cores, &table).unwrap();
    let pace = Pace {
        gap: *random.pick(&[1, 1, 2, 5, 40]),
        same: *random.pick(&[0, 5, 9]),
        full: *random.pick(&[0, 5, 10]),
    };
    let arrivals = arrivals(random, &record, &pace);
    let last = arrivals.last().map_or(0, |arrival| arrival.time);
    let stop = *random.pick(&[last + 50, last + 1, last, last / 2, 0]);
    Day {
        record,
        stop: stop.min(200),
        arrivals,
    }
}

fn arrivals(random: &mut Random, record: &Record, pace: &Pace) -> Vec<Arrival> {
    let (mut time, mut task) = (random.below(4), 1 + random.below(record.count));
    let mut arrivals = Vec::new();
    for _ in 0..random.below(120) {
        time += random.below(pace.gap);
        if random.below(10) >= pace.same {
            task = 1 + random.below(record.count);
        }
        let cost = record.tasks[task as usize - 1].cost;
        let whole = random.below(10) < pace.full;
        let length = if whole { cost } else { 1 + random.below(cost) };
        arrivals.push(Arrival { time, task, length });
    }
    arrivals
}

fn text(answer: Vec<u8>) -> String {
    String::from_utf8(answer).unwrap()
}

/// The numbers of a text's lines that start with a word.
fn lines(text: &str, word: &str) -> Vec<Vec<i64>> {
    let lines = text
        .lines()
        .filter(|line| line.split(' ').next() == Some(word));
    let numbers = lines.map(|line| line.split(' ').filter_map(|word| word.parse().ok()));
    numbers.map(Iterator::collect).collect()
}

#[test]
fn skipping_is_ticking() {
    let mut random = Random(21);
    let mut met = BTreeMap::new();
    for round in 0..1_500 {
        let day = day(&mut random);
        let skipped = text(skipping::run(&day));
        assert_eq!(skipped, text(ticking::run(&day)), "day {round}");
        for line in skipped.lines() {
            let word = line.split(' ').next().unwrap().to_string();
            *met.entry(word).or_insert(0) += 1;
        }
    }
    for word in ["finish", "refused", "span", "unfinished"] {
        assert!(met[word] > 1_000, "{met:?}");
    }
}

/// The length of each run by task and number: an arrival that is not refused is its task's next run.
fn lengths(day: &Day, text: &str) -> BTreeMap<[i64; 2], i64> {
    let refused: Vec<i64> = lines(text, "refused").iter().map(|line| line[1]).collect();
    let (mut runs, mut lengths) = (BTreeMap::new(), BTreeMap::new());
    for (place, arrival) in day.arrivals.iter().enumerate() {
        if arrival.time < day.stop && !refused.contains(&(place as i64 + 1)) {
            let run = runs.entry(arrival.task).or_insert(0);
            *run += 1;
            lengths.insert([arrival.task as i64, *run], arrival.length as i64);
        }
    }
    lengths
}

/// The ticks of each run by its spans and where the last ends; those of a core do not overlap.
fn spans(text: &str, stop: i64) -> BTreeMap<[i64; 2], [i64; 2]> {
    let (mut until, mut runs) = (BTreeMap::new(), BTreeMap::new());
    for span in lines(text, "span") {
        let &[core, task, run, from, to] = &span[..] else {
            panic!("{span:?}");
        };
        let before = until.insert(core, to).unwrap_or(0);
        assert!(before <= from && from < to && to <= stop, "{span:?}");
        let ticks = runs.entry([task, run]).or_insert([0, 0]);
        *ticks = [ticks[0] + to - from, to];
    }
    runs
}

/// A finished run has had its length, the last tick just then; an unfinished one has had less.
fn check_ticks(day: &Day, text: &str) {
    let (mut lengths, spans) = (lengths(day, text), spans(text, day.stop as i64));
    for finish in lines(text, "finish") {
        let run = [finish[1], finish[2]];
        let length = lengths.remove(&run).expect("a run that finishes once");
        assert_eq!(spans[&run], [length, finish[3]], "{finish:?}");
    }
    for unfinished in lines(text, "unfinished") {
        let run = [unfinished[0], unfinished[1]];
        let length = lengths.remove(&run).expect("a run that is listed once");
        let had = spans.get(&run).map_or(0, |ticks| ticks[0]);
        assert_eq!(unfinished[4..], [had, length], "{unfinished:?}");
        assert!(had < length, "{unfinished:?}");
    }
    assert!(lengths.is_empty(), "{lengths:?}");
}

/// Every arrival before the stop is finished, unfinished or refused.
#[test]
fn every_arrival_is_told_of_once() {
    let mut random = Random(22);
    for _ in 0..2_000 {
        let day = day(&mut random);
        let text = text(skipping::run(&day));
        check_ticks(&day, &text);
        let taken = day.arrivals.iter().filter(|it| it.time < day.stop);
        let told = ["finish", "unfinished", "refused"].map(|word| lines(&text, word).len());
        assert_eq!(told.iter().sum::<usize>(), taken.count());
    }
}

/// A text with every time moved by as much.
fn moved(text: &str, by: u64) -> String {
    let mut moved = String::new();
    for line in text.lines() {
        let mut before = "";
        for word in line.split(' ') {
            let time = ["at", "from", "to", "deadline", "stop"].contains(&before);
            let number = word.parse::<u64>().ok().filter(|_| time);
            moved += &number.map_or(word.to_string(), |number| (number + by).to_string());
            moved.push(' ');
            before = word;
        }
        moved.pop();
        moved.push('\n');
    }
    moved
}

/// A day that begins late is the same day, up to the clock's limit.
#[test]
fn a_late_day_is_the_same() {
    let mut random = Random(23);
    for _ in 0..1_000 {
        let mut day = day(&mut random);
        if day.stop == 0 {
            continue;
        }
        let early = text(skipping::run(&day));
        // No release of such a day is held beyond this.
        let by = CLOCK - *random.pick(&[1_000, 1_001, 123_456_789, CLOCK / 2]);
        day.stop += by;
        day.arrivals
            .iter_mut()
            .for_each(|arrival| arrival.time += by);
        assert_eq!(text(skipping::run(&day)), moved(&early, by));
    }
}
