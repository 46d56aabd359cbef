//! Inputs for `sheet` and `table`: many are read, the others are odd in one way or several.

use super::draft::Draft;
use super::{edge, head, lines, long, many, names, words, BYTES};
use crate::random::Random;
use crate::texts::damage;

pub fn input(random: &mut Random) -> Vec<u8> {
    let mut draft = match random.below(8) {
        0 => many::draft(random),
        1 => long::draft(random),
        _ => Draft::any(random),
    };
    spoil(random, &mut draft);
    let mut input = draft.input();
    if random.one_in(12) {
        input = lines::spoil(random, input);
    }
    if random.one_in(12) {
        input = damage::spoil_by(random, input, BYTES);
    }
    if random.one_in(50) {
        input.truncate(random.place(12));
    }
    input
}

/// Makes words of a sheet odd, so that one refusal can stand before another.
fn spoil(random: &mut Random, draft: &mut Draft) {
    if random.one_in(3) {
        edge::put(random, draft);
    }
    if random.one_in(8) {
        let names = draft.jobs.iter_mut().map(|[name, ..]| name);
        names::repeat(random, &mut names.collect::<Vec<_>>());
    }
    if random.one_in(10) {
        word(random, &mut draft.jobs);
    }
    if random.one_in(16) {
        draft.cores = head::cores(random);
    }
    if random.one_in(12) {
        draft.tick = head::tick(random);
    }
}

/// An odd word in one job.
fn word(random: &mut Random, jobs: &mut [[String; 3]]) {
    if jobs.is_empty() {
        return;
    }
    let [name, cost, period] = &mut jobs[random.place(jobs.len())];
    match random.below(4) {
        0 => *cost = words::number(random),
        1 => *period = words::number(random),
        _ => *name = words::name(random),
    }
}
