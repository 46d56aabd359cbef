//! Names of jobs, each another, and names that are the same or nearly.

use crate::random::Random;
use second::limits::NAME;
use std::collections::BTreeSet;

/// As many names have fewer than four letters.
const SHORTER: usize = 26 + 26 * 26 + 26 * 26 * 26;

/// The name of a number, the shortest first: a to z, aa to zz and so on.
pub fn short(mut number: usize) -> String {
    let mut name = String::new();
    loop {
        name.insert(0, char::from(b'a' + (number % 26) as u8));
        if number < 26 {
            return name;
        }
        number = number / 26 - 1;
    }
}

/// So many names of one sort, each another.
pub fn drawn(random: &mut Random, number: usize) -> Vec<String> {
    match random.below(4) {
        0 => (0..number).map(short).collect(),
        1 => (0..number).map(full).collect(),
        _ => any(random, number),
    }
}

/// Twelve letters, of which the last four tell the numbers apart.
fn full(number: usize) -> String {
    "a".repeat(NAME - 4) + &short(SHORTER + number)
}

/// Names of any length.
fn any(random: &mut Random, number: usize) -> Vec<String> {
    let mut seen = BTreeSet::new();
    let mut names = Vec::new();
    while names.len() < number {
        let length = random.between(1, NAME as u64);
        let letter = |_| char::from(b'a' + random.below(26) as u8);
        let name: String = (0..length).map(letter).collect();
        if seen.insert(name.clone()) {
            names.push(name);
        }
    }
    names
}

/// Gives one place the name of another: near, far or any; at times with a letter more or another.
pub fn repeat(random: &mut Random, names: &mut [&mut String]) {
    let last = names.len().saturating_sub(1);
    if last == 0 {
        return;
    }
    let (from, to) = match random.below(4) {
        0 => (0, last),
        1 => (last - 1, last),
        2 => (0, 1),
        _ => {
            let from = random.place(last);
            (from, from + 1 + random.place(last - from))
        }
    };
    let mut name = names[from].clone();
    match random.below(6) {
        0 => name.push('a'),
        1 => drop(name.pop()),
        2 => {
            name.pop();
            name.push('q');
        }
        _ => {}
    }
    *names[to] = name;
}
