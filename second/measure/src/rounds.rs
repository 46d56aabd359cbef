//! Rounds of one kind, which both sides make and time.

use crate::boxes::{Bench, Call};

/// Laps of so many rounds of a kind on a box, by the letters of `rounds.c`; the calls are made before them, or in each round.
pub struct Rounds<'a> {
    pub bench: &'a Bench,
    pub kind: char,
    pub laps: u64,
    pub rounds: u64,
    pub calls: Vec<Call>,
}

/// The nanoseconds of the quickest lap, and the sum of all answers: the same of both sides, or they have not done the same.
pub struct Timed {
    pub nanoseconds: u64,
    pub sum: u64,
}

impl Rounds<'_> {
    /// The input of `rounds.c`.
    pub fn input(&self) -> String {
        let mut text = format!("{} {} {}\n", self.kind, self.laps, self.rounds);
        text += &self.bench.text();
        text += "calls\n";
        for (call, number, time) in &self.calls {
            let word = match call {
                'r' => "release",
                'f' => "finish",
                _ => "look",
            };
            text += &format!("{word} {number} {time}\n");
        }
        text
    }
}

#[cfg(test)]
mod tests {
    use super::*;

    #[test]
    fn input_has_the_table_and_the_calls() {
        let bench = Bench {
            cores: 1,
            table: vec![1, 2],
        };
        let rounds = Rounds {
            bench: &bench,
            kind: 'c',
            laps: 3,
            rounds: 4,
            calls: vec![('r', 1, 0), ('f', 1, 1), ('l', 1, 2)],
        };
        assert_eq!(
            rounds.input(),
            "c 3 4\n1\n1 2\ncalls\nrelease 1 0\nfinish 1 1\nlook 1 2\n"
        );
    }
}
