//! Random numbers and tables for the tests.
#![allow(dead_code)]

/// A small generator of numbers that look random.
pub struct Random(pub u64);

impl Random {
    pub fn next(&mut self) -> u64 {
        self.0 = self.0.wrapping_add(0x9e37_79b9_7f4a_7c15);
        let mut mixed = self.0;
        mixed = (mixed ^ (mixed >> 30)).wrapping_mul(0xbf58_476d_1ce4_e5b9);
        mixed = (mixed ^ (mixed >> 27)).wrapping_mul(0x94d0_49bb_1331_11eb);
        mixed ^ (mixed >> 31)
    }

    pub fn below(&mut self, limit: u64) -> u64 {
        self.next() % limit
    }

    pub fn pick<'a, T>(&mut self, from: &'a [T]) -> &'a T {
        &from[self.below(from.len() as u64) as usize]
    }
}

/// A core count and a table that fits it, often filling every core.
pub fn table(random: &mut Random, most_common: u64) -> (u32, Vec<u32>) {
    let common = 1 + random.below(most_common);
    let periods: Vec<u64> = (1..=common).filter(|t| common.is_multiple_of(*t)).collect();
    let cores = 1 + random.below(16);
    let mut rest = cores * common;
    let mut table = Vec::new();
    let heavy = random.below(2) == 0;
    for _ in 0..1 + random.below(64) {
        let period = *random.pick(&periods);
        let unit = common / period;
        if rest < unit {
            continue;
        }
        let least = if heavy { period / 2 } else { 0 };
        let cost = (least + 1 + random.below(period - least)).min(period);
        let cost = cost.min(rest / unit);
        rest -= cost * unit;
        table.extend([cost as u32, period as u32]);
    }
    if table.is_empty() {
        table.extend([1, common as u32]);
    }
    (cores as u32, table)
}
