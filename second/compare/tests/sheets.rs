//! What the sheets must meet: each limit on both of its sides.
#![forbid(unsafe_code)]

mod asked;

use asked::{all_met, asked, Asked};
use compare::sheets::PROGRAMS;
use second::sheet::read_sheet;
use std::collections::BTreeSet;

/// Name, cost and period, in nanoseconds.
type Job = (String, u64, u64);

/// The tick length and the jobs of a sheet that can be read.
fn jobs(sheet: &[u8]) -> Option<(u64, Vec<Job>)> {
    let tick = read_sheet(sheet).ok()?.tick;
    let text = String::from_utf8(sheet.to_vec()).ok()?;
    let job = |line: &str| {
        let fields: Vec<&str> = line.split(',').collect();
        let number = |field: &str| field.parse().expect("a number");
        (fields[0].to_string(), number(fields[1]), number(fields[2]))
    };
    Some((tick, text.lines().skip(1).map(job).collect()))
}

#[test]
fn every_program_meets_its_refusals() {
    let met = asked()
        .iter()
        .map(|it| (it.program, it.refused()))
        .collect();
    let numbers = [0, 1, 2, 3, 4, 5, 6, 16, 17, 18, 19];
    all_met(
        &met,
        PROGRAMS
            .iter()
            .flat_map(|&program| numbers.map(|no| (program, no))),
    );
}

#[test]
fn lengths_and_counts_of_jobs() {
    let asked = asked();
    let sheets = asked.iter().filter(|it| it.reads_sheet());
    let lengths = sheets.clone().map(|it| (it.sheet().len(), it.refused()));
    let lengths = lengths.collect();
    all_met(&lengths, [(4_095, 2), (4_096, 2), (4_097, 17), (4_098, 17)]);
    all_met(
        &lengths,
        [(4_096, 1), (4_096, 17), (4_097, 19), (0, 19), (4_092, 2)],
    );
    let numbers = sheets.map(|it| (it.lines().len().saturating_sub(2), it.refused()));
    let numbers = numbers.collect();
    all_met(
        &numbers,
        [(0, 2), (1, 0), (64, 0), (65, 2), (65, 18), (65, 17)],
    );
    all_met(&numbers, [(588, 2), (682, 18), (682, 17), (64, 18), (0, 1)]);
}

#[test]
fn first_lines() {
    let asked = asked();
    let sheets = asked.iter().filter(|it| it.reads_sheet());
    let line = |it: &Asked, place: usize| {
        let line = it.lines().get(place).copied().unwrap_or(b"");
        String::from_utf8_lossy(line).into_owned()
    };
    let ticks = sheets
        .clone()
        .map(|it| (line(it, 1), it.refused()))
        .collect();
    let right = [("1\n", 0), ("1000000\n", 0), ("0\n", 19), ("1000001\n", 19)];
    all_met(&ticks, right.map(|(tick, no)| (tick.to_string(), no)));
    let cores = sheets.map(|it| (line(it, 0), it.refused())).collect();
    let right = [
        ("", 16),
        ("01\n", 16),
        ("4294967295\n", 1),
        ("4294967296\n", 16),
    ];
    all_met(&cores, right.map(|(cores, no)| (cores.to_string(), no)));
}

/// What is so in a job of a sheet that can be read.
fn traits(tick: u64, name: &str, cost: u64, period: u64) -> Vec<&'static str> {
    let (up, down) = (cost.div_ceil(tick), period / tick);
    let traits = [
        ("twelve letters", name.len() == 12),
        ("cost between ticks", cost % tick > 1),
        ("cost one over", tick > 2 && cost % tick == 1),
        ("period one short", tick > 2 && period % tick == tick - 1),
        ("period of no tick", period > 0 && down == 0),
        ("longest period", down == 1_000_000),
        ("period too long", down == 1_000_001),
        ("cost of the period", up == down),
        ("cost over the period", up == down + 1),
        ("cost of 2^32", up == 1 << 32),
        ("cost to be cut", up >> 32 > 0 && up as u32 <= down as u32),
        (
            "period to be cut",
            down >> 32 > 0 && up <= u64::from(down as u32),
        ),
    ];
    let traits = traits.into_iter().filter(|(_, so)| *so);
    traits.map(|(name, _)| name).collect()
}

#[test]
fn numbers_of_jobs_that_are_read() {
    let (mut digits, mut met) = (BTreeSet::new(), BTreeSet::new());
    for it in asked().iter().filter(|it| it.reads_sheet()) {
        let Some((tick, jobs)) = jobs(it.sheet()) else {
            continue;
        };
        for (name, cost, period) in jobs {
            digits.extend([cost, period].map(|number| number.to_string().len()));
            let traits = traits(tick, &name, cost, period).into_iter();
            met.extend(traits.map(|name| (name, it.refused())));
        }
    }
    assert_eq!(digits, (1..=15).collect());
    all_met(&met, [("twelve letters", 0), ("cost between ticks", 0)]);
    all_met(&met, [("cost one over", 0), ("period one short", 0)]);
    all_met(&met, [("longest period", 0), ("cost of the period", 0)]);
    all_met(&met, [("period too long", 3), ("period of no tick", 3)]);
    all_met(&met, [("cost over the period", 4), ("cost of 2^32", 4)]);
    all_met(&met, [("cost to be cut", 4), ("period to be cut", 3)]);
}
