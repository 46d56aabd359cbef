//! What is asked of `rehearse`, and what its answers say.
#![allow(dead_code)]

use compare::random::Random;
use compare::rehearsals;
use std::collections::BTreeMap;

/// How often each was met.
pub type Met = BTreeMap<&'static str, u64>;

pub struct Asked {
    pub input: Vec<u8>,
    pub answer: Vec<u8>,
}

/// So many days.
pub fn asked(number: usize) -> impl Iterator<Item = Asked> {
    let mut random = Random::new(31);
    (0..number).map(move |_| {
        let batch = rehearsals::batch(&mut random);
        let input = batch.input();
        let case = batch.cases.into_iter().next().expect("there is a case");
        let answer = case.answer;
        Asked { input, answer }
    })
}

/// The numbers of an answer's lines, by their first words.
pub struct Days(BTreeMap<String, Vec<Vec<i64>>>);

impl Days {
    pub fn of(answer: &[u8]) -> Self {
        let mut lines: BTreeMap<String, Vec<Vec<i64>>> = BTreeMap::new();
        for line in String::from_utf8_lossy(answer).lines() {
            let mut words = line.split(' ');
            let word = words.next().unwrap_or("").to_string();
            let numbers = words.filter_map(|word| word.parse().ok());
            lines.entry(word).or_default().push(numbers.collect());
        }
        Days(lines)
    }

    pub fn lines(&self, word: &str) -> &[Vec<i64>] {
        self.0.get(word).map_or(&[], |lines| lines)
    }
}
