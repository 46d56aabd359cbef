//! Tasks that fit into what is left of a box.

use crate::random::Random;

/// A box that is being filled, in units of 1/L core.
pub struct Room {
    pub common: u64,
    pub rest: u64,
    pub numbers: Vec<u32>,
}

impl Room {
    pub fn new(cores: u64, common: u64) -> Self {
        Room {
            common,
            rest: cores * common,
            numbers: Vec::new(),
        }
    }

    pub fn tasks(&self) -> usize {
        self.numbers.len() / 2
    }

    /// Adds a task, cut to what is left; one with nothing left is not added.
    pub fn add(&mut self, cost: u64, period: u64) {
        let unit = self.common / period;
        let cost = cost.min(self.rest / unit);
        if cost > 0 {
            self.rest -= cost * unit;
            self.numbers.extend([cost as u32, period as u32]);
        }
    }

    /// Adds a task of any cost, or one of at least half a core.
    fn add_random(&mut self, random: &mut Random, period: u64, heavy: bool) {
        let least = if heavy { period.div_ceil(2) } else { 1 };
        self.add(random.between(least, period), period);
    }

    /// Adds so many of them, with periods of a list.
    pub fn add_some(&mut self, random: &mut Random, number: u64, periods: &[u64], heavy: bool) {
        for _ in 0..number {
            let period = random.pick(periods);
            self.add_random(random, period, heavy);
        }
    }

    /// The numbers, with one light task if none has been added.
    pub fn finish(mut self) -> Vec<u32> {
        if self.numbers.is_empty() {
            self.numbers.extend([1, self.common as u32]);
        }
        self.numbers
    }
}

/// Every number that divides a number, up to the longest period.
pub fn divisors(number: u64) -> Vec<u64> {
    let small = (1..).take_while(|n| n * n <= number);
    let small: Vec<u64> = small.filter(|n| number.is_multiple_of(*n)).collect();
    let large = small.iter().map(|n| number / n);
    let mut all: Vec<u64> = small.iter().copied().chain(large).collect();
    all.retain(|&n| n <= second::limits::PERIOD);
    all
}
