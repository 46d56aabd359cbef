//! The report of a run, and whether it is good.

use crate::kinds::{Kind, KINDS};
use crate::options::Options;
use crate::run::Outcome;
use crate::tally::{Tally, REFUSALS};

/// A run shorter than this need not meet every refusal.
const ENOUGH_SECONDS: u64 = 20;

/// Prints a run's counts and answers whether it holds.
pub fn report(options: &Options, outcome: &Outcome) -> bool {
    for (index, kind) in KINDS.iter().enumerate() {
        if options.asks(kind) {
            report_kind(kind, &outcome.tallies[index]);
        } else {
            println!("{}: not asked, for a program is not given", kind.name);
        }
    }
    if outcome.differences > 0 {
        println!("compare: seed {}, DIFFERENT", options.seed);
        return false;
    }
    let besides = besides(outcome);
    if !besides.is_empty() {
        let besides = besides.join(", ");
        println!("compare: refusals that cannot be given, and are: {besides}");
        return false;
    }
    let missing = missing(options, outcome);
    if !missing.is_empty() {
        println!("compare: refusals never met: {}", missing.join(", "));
    }
    println!("compare: seed {}, no difference", options.seed);
    missing.is_empty() || options.seconds < ENOUGH_SECONDS
}

/// One kind's line of cases and line of refusals.
fn report_kind(kind: &Kind, tally: &Tally) {
    let seconds = tally.spent.as_secs_f64().max(0.001);
    println!(
        "{}: {} {} in {} processes, {:.0} a second of one processor; {} answers without a refusal",
        kind.name,
        tally.cases,
        kind.cases,
        tally.batches,
        tally.cases as f64 / seconds,
        tally.met[0]
    );
    let met = kind.refusals.iter();
    let met: Vec<String> = met.map(|&no| format!("{no}:{}", tally.met[no])).collect();
    println!("{}: refusals {}", kind.name, met.join(" "));
}

/// The refusals that a kind has met, though it cannot.
fn besides(outcome: &Outcome) -> Vec<String> {
    let mut besides = Vec::new();
    for (kind, tally) in KINDS.iter().zip(&outcome.tallies) {
        let met = (1..=REFUSALS).filter(|&no| tally.met[no] > 0);
        let met = met.filter(|no| !kind.refusals.contains(no));
        besides.extend(met.map(|no| format!("{no} of {}", kind.name)));
    }
    besides
}

/// The refusals that no asked kind has met, though one can, and those that a kind must meet and has not.
fn missing(options: &Options, outcome: &Outcome) -> Vec<String> {
    let asked = |kind: &usize| options.asks(&KINDS[*kind]);
    let mut missing = Vec::new();
    for no in 1..=REFUSALS {
        let can = |kind: &usize| KINDS[*kind].refusals.contains(&no);
        let kinds: Vec<usize> = (0..KINDS.len()).filter(asked).filter(can).collect();
        let met = |kind: usize| outcome.tallies[kind].met[no] > 0;
        if !kinds.is_empty() && !kinds.iter().any(|&kind| met(kind)) {
            missing.push(no.to_string());
            continue;
        }
        for kind in kinds {
            if KINDS[kind].meets_all && !met(kind) {
                missing.push(format!("{no} of {}", KINDS[kind].name));
            }
        }
    }
    missing
}
