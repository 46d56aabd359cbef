//! What the days that are rehearsed must meet, read off their inputs and answers.
#![forbid(unsafe_code)]

mod rehearsed;

use rehearsed::{asked, Days, Met};
use second::day::{read_day, Day};
use second::limits::CLOCK;
use std::collections::BTreeMap;

/// What is so of a day's stop and its arrivals.
fn drawn(day: &Day) -> Vec<(&'static str, bool)> {
    let arrivals = &day.arrivals;
    let some = |so: &dyn Fn(u64) -> bool| arrivals.iter().any(|it| so(it.time));
    let most = arrivals.iter().map(|it| {
        let alike = arrivals.iter().filter(|other| other.time == it.time);
        alike.count()
    });
    let cost = |task: u64| day.record.tasks[task as usize - 1].cost;
    vec![
        ("no arrival", arrivals.is_empty()),
        ("stop 0", day.stop == 0 && !arrivals.is_empty()),
        ("at the stop", some(&|time| time == day.stop)),
        ("after the stop", some(&|time| time > day.stop)),
        ("above the limit", some(&|time| time > CLOCK)),
        ("many at once", most.max() > Some(20)),
        (
            "full cost",
            arrivals.len() > 10 && arrivals.iter().all(|it| it.length == cost(it.task)),
        ),
        (
            "far",
            day.stop == CLOCK && some(&|time| time > CLOCK / 2 && time < CLOCK),
        ),
    ]
}

/// What is so of the runs that a day leaves.
fn left(day: &Day, days: &Days) -> Vec<(&'static str, bool)> {
    let unfinished = days.lines("unfinished");
    let held = |line: &Vec<i64>| {
        let period = day.record.tasks[line[0] as usize - 1].period as i64;
        line[3] - period > day.stop as i64
    };
    vec![
        ("a stop inside a run", unfinished.iter().any(|it| it[4] > 0)),
        ("held at the stop", unfinished.iter().any(held)),
        (
            "eight left",
            unfinished.windows(8).any(|it| it[0][0] == it[7][0]),
        ),
    ]
}

/// What is so of the finishes and the refused arrivals.
fn told(day: &Day, days: &Days) -> Vec<(&'static str, bool)> {
    let (finishes, refused) = (days.lines("finish"), days.lines("refused"));
    let mut cores = BTreeMap::new();
    let moved = |it: &Vec<i64>| cores.insert(it[1], it[0]).is_some_and(|was| was != it[0]);
    vec![
        (
            "finish at the stop",
            finishes.iter().any(|it| it[3] == day.stop as i64),
        ),
        ("late", finishes.iter().any(|it| it[4] > 0)),
        ("on time", finishes.iter().any(|it| it[4] == 0)),
        ("before time", finishes.iter().any(|it| it[4] < 0)),
        (
            "two finishes",
            finishes.windows(2).any(|it| it[0][3] == it[1][3]),
        ),
        ("a mover", finishes.iter().any(moved)),
        ("refused by 10", refused.iter().any(|it| it[0] == 10)),
        ("refused by 12", refused.iter().any(|it| it[0] == 12)),
        (
            "finish and refusal",
            refused
                .iter()
                .any(|it| finishes.iter().any(|finish| finish[3] == it[3])),
        ),
    ]
}

/// What is so of the spans: at an instant without arrival or finish, a held run has become ready.
fn spans(day: &Day, days: &Days) -> Vec<(&'static str, bool)> {
    let (finishes, spans) = (days.lines("finish"), days.lines("span"));
    let arrives = |at: i64| day.arrivals.iter().any(|it| it.time == at as u64);
    let finishes = |at: i64| finishes.iter().any(|it| it[3] == at);
    let quiet = |at: i64| !arrives(at) && !finishes(at);
    let again = |one: &[i64], other: &[i64]| one[1..3] == other[1..3] && one[4] < other[3];
    let next = |one: &[i64], other: &[i64]| {
        one[..2] == other[..2] && one[2] + 1 == other[2] && one[4] == other[3]
    };
    let pair = |so: &dyn Fn(&[i64], &[i64]) -> bool| {
        spans.iter().enumerate().any(|(place, one)| {
            let later = spans[place + 1..].iter();
            later.take(40).any(|other| so(one, other))
        })
    };
    vec![
        ("ready by itself", spans.iter().any(|it| quiet(it[3]))),
        (
            "ready and ahead",
            spans
                .iter()
                .any(|it| quiet(it[4]) && it[4] < day.stop as i64),
        ),
        ("a run in two spans", pair(&again)),
        ("one run after the other", pair(&next)),
    ]
}

#[test]
fn days_that_are_rehearsed() {
    let mut met = Met::new();
    for asked in asked(4_000) {
        let Ok(day) = read_day(&asked.input) else {
            continue;
        };
        let days = Days::of(&asked.answer);
        let traits = [
            drawn(&day),
            left(&day, &days),
            told(&day, &days),
            spans(&day, &days),
        ];
        for (name, so) in traits.concat() {
            *met.entry(name).or_default() += u64::from(so);
        }
    }
    assert_eq!(met.len(), 24);
    for (name, times) in &met {
        assert!(*times >= 15, "{name}: {times}; {met:#?}");
    }
}
