//! What the days that are refused must meet: each refusal alone, at both sides of its limit, and before later ones.
#![forbid(unsafe_code)]

mod rehearsed;

use rehearsed::{asked, Asked};
use second::plan::plan;
use second::task::Task;
use second::text::{lines, read_text};
use std::collections::BTreeMap;

/// A table's text, the stop's line and every arrival at their longest.
const ROOM: usize = 200_729;

/// A table's text, a stop and the lines of arrivals.
type Parts<'a> = (&'a [u8], u64, Vec<&'a [u8]>);

/// An input that is refused.
struct Refused {
    no: i64,
    /// The line or arrival that is named.
    named: i64,
    input: Vec<u8>,
}

impl Refused {
    fn of(asked: Asked) -> Option<Self> {
        let answer = String::from_utf8(asked.answer).expect("the answer is text");
        let alone = answer.lines().count() == 1 && answer.starts_with("refused ");
        let mut numbers = answer
            .split_whitespace()
            .filter_map(|word| word.parse().ok());
        alone.then(|| Refused {
            no: numbers.next().expect("a number"),
            named: numbers.next().unwrap_or(0),
            input: asked.input,
        })
    }

    /// Its parts, where a number follows the first place of the stop's word.
    fn parts(&self) -> Option<Parts<'_>> {
        let word = b"rehearse ";
        let at = self.input.windows(9).position(|part| part == word)?;
        let (text, rest) = self.input.split_at(at);
        let end = rest.iter().position(|&byte| byte == b'\n')?;
        let stop = String::from_utf8_lossy(&rest[9..end]).parse().ok()?;
        let arrivals = rest[end + 1..].split_inclusive(|&byte| byte == b'\n');
        Some((text, stop, arrivals.collect()))
    }
}

/// Counts in what is so of an input as a whole.
fn whole(it: &Refused) -> Vec<(&'static str, bool)> {
    let lines: Vec<_> = lines(&it.input).collect();
    let named = lines.get((it.named - 1).max(0) as usize).copied().flatten();
    let stop = named.is_some_and(|line| line.starts_with(b"rehearse"));
    vec![
        ("any", true),
        ("line 0", it.named == 0),
        ("line after the last", it.named == lines.len() as i64 + 1),
        ("the stop's line", stop),
        ("no last newline", lines.last().is_some_and(Option::is_none)),
        ("4097", it.named == 4_097),
        ("more than the room", it.input.len() > ROOM),
    ]
}

/// Three numbers of a line.
fn numbers(line: &[u8]) -> Option<[u64; 3]> {
    let line = String::from_utf8(line.to_vec()).ok()?;
    let words = line.strip_suffix('\n')?.split(' ');
    let numbers: Option<Vec<u64>> = words.map(|word| word.parse().ok()).collect();
    numbers?.try_into().ok()
}

/// Counts in what is so of the arrival that is named.
fn of_arrival(tasks: &[Task], lines: &[&[u8]], named: usize) -> Vec<(&'static str, bool)> {
    let Some(line) = named.checked_sub(1).and_then(|place| lines.get(place)) else {
        return Vec::new();
    };
    let digits = line.split(|&byte| byte == b' ' || byte == b'\n');
    let longest = digits.clone().map(<[u8]>::len).max();
    let zero = digits.clone().any(|word| word.len() > 1 && word[0] == b'0');
    let mut traits = vec![
        ("sixteen digits", longest == Some(16)),
        ("leading zero", zero),
    ];
    let Some([time, task, length]) = numbers(line) else {
        traits.push(("unreadable", true));
        return traits;
    };
    let before = lines[..named - 1].last().and_then(|line| numbers(line));
    let before = before.map_or(0, |[time, ..]| time);
    let cost = tasks
        .get((task as usize).wrapping_sub(1))
        .map(|task| task.cost);
    traits.extend([
        ("task 0", task == 0),
        ("task above", task == tasks.len() as u64 + 1),
        ("length 0", length == 0),
        ("length above", cost.is_some_and(|cost| length == cost + 1)),
        ("falls by one", time + 1 == before),
        ("falls too", time < before),
    ]);
    traits
}

/// Counts in what is so of the parts.
fn traits(it: &Refused) -> Vec<(&'static str, bool)> {
    let mut traits = whole(it);
    let Some((text, stop, lines)) = it.parts() else {
        return traits;
    };
    let over = stop > 1_000_000_000_000;
    let odd = lines.iter().any(|line| numbers(line).is_none());
    traits.extend([
        ("stop just above", stop == 1_000_000_000_001),
        ("stop of 15 digits", stop == 999_999_999_999_999),
        ("stop above too", over),
        ("odd arrivals too", odd),
        ("text of 4096", text.len() == 4_096),
        ("text of 4097", text.len() == 4_097),
    ]);
    let read = read_text(text).ok();
    if let Some(plan) = read.and_then(|(cores, table)| plan(cores, &table).ok()) {
        traits.extend(of_arrival(&plan.tasks, &lines, it.named as usize));
    }
    traits
}

/// What must be met, by refusal.
const MUST: [(i64, &[&str]); 6] = [
    (
        16,
        &[
            "line 0",
            "line after the last",
            "the stop's line",
            "no last newline",
            "more than the room",
            "stop above too",
            "odd arrivals too",
            "text of 4097",
        ],
    ),
    (2, &["text of 4096", "stop above too", "odd arrivals too"]),
    (
        12,
        &["stop just above", "stop of 15 digits", "odd arrivals too"],
    ),
    (
        25,
        &[
            "unreadable",
            "sixteen digits",
            "leading zero",
            "task 0",
            "task above",
            "length 0",
            "falls too",
            "no last newline",
            "4097",
            "more than the room",
        ],
    ),
    (
        26,
        &["length 0", "length above", "falls too", "odd arrivals too"],
    ),
    (27, &["falls by one", "odd arrivals too"]),
];

#[test]
fn days_that_are_refused() {
    let mut met: BTreeMap<(i64, &str), u64> = BTreeMap::new();
    for it in asked(6_000).filter_map(Refused::of) {
        for (name, so) in traits(&it) {
            *met.entry((it.no, name)).or_default() += u64::from(so);
        }
    }
    for (no, must) in MUST {
        for name in must {
            let times = met.get(&(no, *name)).copied().unwrap_or(0);
            assert!(times >= 3, "{name} of {no}: {times}; {met:#?}");
        }
    }
    for no in [1, 2, 3, 4, 5, 6, 12, 16, 25, 26, 27] {
        assert!(met[&(no, "any")] >= 150, "{no}: {met:#?}");
    }
}
