//! What is asked of the three programs of the sheets, and what must be met.
#![allow(dead_code)]

use compare::batch::Batch;
use compare::random::Random;
use compare::sheets::{self, PROGRAMS};
use compare::texts::refusal;
use std::collections::BTreeSet;

/// The program, what it reads and what it answers.
pub struct Asked {
    pub program: &'static str,
    pub input: Vec<u8>,
    pub answer: Vec<u8>,
}

impl Asked {
    fn of(batch: Batch) -> Self {
        let input = batch.input();
        let case = batch.cases.into_iter().next().expect("there is a case");
        Asked {
            program: PROGRAMS[batch.program],
            input,
            answer: case.answer,
        }
    }

    pub fn refused(&self) -> u32 {
        refusal(self.answer.split(|&byte| byte == b'\n').next())
    }

    /// The sheet behind the line of cores.
    pub fn sheet(&self) -> &[u8] {
        let end = self.input.iter().position(|&byte| byte == b'\n');
        end.map_or(&[], |end| &self.input[end + 1..])
    }

    /// The lines of what is read, with their newlines.
    pub fn lines(&self) -> Vec<&[u8]> {
        let lines = self.input.split_inclusive(|&byte| byte == b'\n');
        lines.collect()
    }

    pub fn reads_sheet(&self) -> bool {
        self.program != "office"
    }
}

pub fn asked() -> Vec<Asked> {
    let mut random = Random::new(11);
    let batch = |_| Asked::of(sheets::batch(&mut random));
    (0..6_000).map(batch).collect()
}

/// Every pair of what is listed has been met.
pub fn all_met<T: Ord + std::fmt::Debug>(met: &BTreeSet<T>, must: impl IntoIterator<Item = T>) {
    for pair in must {
        assert!(met.contains(&pair), "{pair:?} is never met");
    }
}
