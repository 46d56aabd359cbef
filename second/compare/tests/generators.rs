//! What the generators must meet, so that a run without a difference means something.
#![forbid(unsafe_code)]

use compare::batch::Batch;
use compare::kinds::KINDS;
use compare::random::Random;
use compare::tables::{self, table::Table};
use compare::tally::Tally;
use second::plan::{plan, Plan};

/// A kind's place in the list of kinds.
fn kind(name: &str) -> usize {
    let kind = KINDS.iter().position(|kind| kind.name == name);
    kind.expect("there is such a kind")
}

/// So many batches of a kind.
fn batches(name: &str, number: u64) -> Vec<Batch> {
    let kind = kind(name);
    (1..=number)
        .map(|number| (KINDS[kind].batch)(&mut Random::of_batch(5, kind, number)))
        .collect()
}

/// A kind meets every refusal that it can give, answers without one, and nothing else.
fn meets_all(name: &str, number: u64) {
    let mut tally = Tally::default();
    for batch in batches(name, number) {
        tally.add(&batch);
    }
    let can = [&[0], KINDS[kind(name)].refusals].concat();
    for (refusal, &met) in tally.met.iter().enumerate() {
        assert_eq!(met > 0, can.contains(&refusal), "{name}, {refusal}: {met}");
    }
}

#[test]
fn every_refusal_is_met() {
    meets_all("plan", 600);
    meets_all("host", 10);
    meets_all("calls", 400);
    meets_all("lent_records", 40);
    meets_all("sheets", 600);
    meets_all("rehearsals", 300);
}

#[test]
fn a_seed_gives_the_same_again() {
    for kind in KINDS {
        let inputs = || batches(kind.name, 3).iter().map(Batch::input).collect();
        let (once, again): (Vec<_>, Vec<_>) = (inputs(), inputs());
        assert!(once == again, "{}", kind.name);
        assert!(once[0] != once[1], "{}", kind.name);
    }
}

/// Whether some input of a kind has each of these lengths.
fn has_lengths(name: &str, number: u64, lengths: &[usize]) {
    let batches = batches(name, number);
    for &length in lengths {
        let found = batches.iter().any(|batch| batch.input().len() == length);
        assert!(found, "no {name} of {length} bytes");
    }
}

#[test]
fn lengths_at_the_limits() {
    has_lengths("plan", 2_000, &[0, 1, 4_095, 4_096, 4_097]);
    has_lengths("calls", 2_000, &[65_534, 65_535, 65_536, 65_537]);
}

/// Plans of many tables that are taken.
fn plans() -> Vec<Plan> {
    let mut random = Random::new(6);
    let taken = |_| tables::taken(&mut random);
    let plan = |Table { cores, numbers }| plan(cores, &numbers).expect("the table is taken");
    (0..5_000).map(taken).map(plan).collect()
}

/// How many cores a plan's widest mover has.
fn widest(plan: &Plan) -> usize {
    let wide = |shares: &[u64; 16]| shares.iter().filter(|&&share| share > 0).count();
    let widths = plan.tasks.iter().map(|task| wide(&task.shares));
    widths.max().unwrap_or(0)
}

#[test]
fn plans_of_every_shape() {
    let plans = plans();
    let some = |holds: &dyn Fn(&Plan) -> bool| plans.iter().any(holds);
    let movers = |plan: &Plan| plan.tasks.iter().filter(|task| task.moves()).count();
    let weight = |plan: &Plan| plan.tasks.iter().map(|task| task.weight).sum::<u64>();
    assert!(some(&|plan| plan.common == 1_000_000));
    assert!(some(&|plan| plan.common == 999_999));
    assert!(some(&|plan| plan.common == 1));
    assert!(some(&|plan| plan.cores == 16 && movers(plan) == 15));
    assert!(some(&|plan| widest(plan) >= 15));
    assert!(some(&|plan| plan.tasks.len() == 64 && movers(plan) > 0));
    assert!(some(&|plan| plan.tasks.len() == 1 && plan.cores == 16));
    let full = |plan: &&Plan| weight(plan) == plan.cores * plan.common;
    assert!(plans.iter().filter(full).count() > 500);
}
