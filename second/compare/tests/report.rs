//! When a run without a difference holds.
#![forbid(unsafe_code)]

use compare::command::Command;
use compare::kinds::KINDS;
use compare::options::Options;
use compare::report::report;
use compare::run::Outcome;

fn options(seconds: u64) -> Options {
    let command = Command::read("x").expect("a command");
    let programs = KINDS.iter().flat_map(|kind| kind.programs);
    Options {
        commands: programs
            .map(|&program| (program, command.clone()))
            .collect(),
        seed: 1,
        seconds,
    }
}

/// A run in which every kind has met every refusal that it can.
fn met() -> Outcome {
    let mut outcome = Outcome::default();
    for (kind, tally) in KINDS.iter().zip(&mut outcome.tallies) {
        kind.refusals.iter().for_each(|&no| tally.met[no] = 1);
    }
    outcome
}

#[test]
fn all_met() {
    assert!(report(&options(20), &met()));
}

#[test]
fn a_refusal_that_no_kind_meets() {
    // 9 is never given, and 20 to 24 by no program that is asked.
    for no in (1..=19).chain(25..=27).filter(|&no| no != 9) {
        let mut outcome = met();
        for tally in &mut outcome.tallies {
            tally.met[no] = 0;
        }
        assert!(!report(&options(20), &outcome), "{no}");
        assert!(report(&options(19), &outcome), "{no}");
    }
}

#[test]
fn a_refusal_that_one_kind_does_not_meet() {
    for (kind, &holds) in [
        ("plan", &true),
        ("host", &false),
        ("calls", &true),
        ("lent_records", &false),
        ("sheets", &true),
        ("rehearsals", &false),
    ] {
        let place = KINDS.iter().position(|known| known.name == kind);
        let place = place.expect("there is such a kind");
        let mut outcome = met();
        outcome.tallies[place].met[5] = 0;
        assert_eq!(report(&options(20), &outcome), holds, "{kind}");
    }
}

#[test]
fn a_refusal_that_cannot_be_given() {
    for (place, kind) in KINDS.iter().enumerate() {
        let mut outcome = met();
        outcome.tallies[place].met[9] = 1;
        assert!(!report(&options(1), &outcome), "{}", kind.name);
    }
}

#[test]
fn a_difference() {
    let mut outcome = met();
    outcome.differences = 1;
    assert!(!report(&options(1), &outcome));
}
