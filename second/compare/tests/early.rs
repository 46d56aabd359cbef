//! What the calls must meet of early runs, so that a run without a difference means something of them.
#![forbid(unsafe_code)]

mod common;
mod met;

use common::number;
use compare::batch::Batch;
use compare::calls::call::{Call, Name, NAMES};
use compare::lent_records::layout;
use compare::random::Random;
use compare::{calls, lent_records};
use met::{all_met, count, Met};
use second::limits::CLOCK;
use second::record::Record;
use second::text::read_text;

/// What calls from a plan can meet.
const OF_PLANS: [&str; 18] = [
    "early release",
    "a tick early",
    "on time",
    "at the last release",
    "before the last release",
    "the eighth is early",
    "the ninth is early",
    "held until the limit",
    "held beyond the limit",
    "held a tick beyond",
    "12 before 10",
    "11 of a held run",
    "a finish a tick before",
    "a finish at it",
    "a finish a tick after",
    "a look a tick before",
    "a look at it",
    "a look a tick after",
];

/// What a record must be lent for, and a last release beside the clock or at its limit.
const OF_RECORDS: [&str; 5] = [
    "a finish below the period",
    "a look below the period",
    "a ready run behind",
    "a last release a tick ahead",
    "a last release at the limit",
];

/// A call's line, read.
fn read_call(line: &str) -> Option<Call> {
    let words: Vec<&str> = line.split(' ').collect();
    let name = match words[0] {
        "release" => Name::Release,
        "finish" => Name::Finish,
        "look" => Name::Look,
        _ => return None,
    };
    let [number, time] = [words.get(1)?, words.get(2)?].map(|word| word.parse().ok());
    Some(Call {
        name,
        number: number?,
        time: time?,
    })
}

/// Makes the calls of an input whose table is taken, as far as they can be read.
fn play(met: &mut Met, input: &[u8]) -> Option<()> {
    let text = String::from_utf8_lossy(input);
    let (table, calls) = text.split_once("calls\n")?;
    let (cores, table) = read_text(table.as_bytes()).ok()?;
    let mut record = Record::fresh(cores, &table).ok()?;
    for call in calls.lines().map_while(read_call) {
        let before = record.clone();
        let refused = call.make(&mut record).err().unwrap_or(0);
        count(met, &before, &call, refused);
    }
    Some(())
}

#[test]
fn inputs_of_calls() {
    let mut met = Met::new();
    let mut random = Random::new(14);
    for _ in 0..1_500 {
        play(&mut met, &calls::batch(&mut random).input());
    }
    all_met(&met, 20, &OF_PLANS);
    all_met(&met, 1_000, &["early release", "11 of a held run"]);
}

/// Counts in the questions of a batch, each with the record that it is lent.
fn ask(met: &mut Met, batch: &Batch) {
    let mut record = batch.head.clone();
    for case in &batch.cases {
        let [name, kept, place, width] = [0, 4, 8, 12].map(|at| number(&case.input, at, 4));
        let [value, asked, time] = [28, 36, 44].map(|at| number(&case.input, at, 8));
        let (place, width) = (place as usize, width as usize);
        let mut lent = record.clone();
        lent[place..place + width].copy_from_slice(&value.to_le_bytes()[..width]);
        let lent = layout::record(&lent);
        if (1..=3).contains(&name) && lent.sound() {
            let call = Call {
                name: NAMES[name as usize - 1],
                number: asked,
                time,
            };
            count(met, &lent, &call, number(&case.answer, 0, 4) as u32);
            ahead(met, &lent);
        }
        if kept == 1 {
            record = case.answer[68..68 + layout::RECORD].to_vec();
        }
    }
}

/// Counts in last releases above the clock.
fn ahead(met: &mut Met, record: &Record) {
    let last = |last: u64| record.states.iter().any(|state| state.last == last);
    let tick = u64::from(last(record.clock + 1));
    *met.entry("a last release a tick ahead").or_default() += tick;
    *met.entry("a last release at the limit").or_default() += u64::from(last(CLOCK));
}

#[test]
fn questions_of_lent_records() {
    let mut met = Met::new();
    let mut random = Random::new(15);
    for _ in 0..200 {
        ask(&mut met, &lent_records::batch(&mut random));
    }
    all_met(&met, 5, &OF_PLANS);
    all_met(&met, 5, &OF_RECORDS);
    all_met(&met, 100, &["early release", "11 of a held run"]);
}
