//! The boxes that are measured, and calls on them.

/// A box: cores, and cost and period of each task.
#[derive(Clone)]
pub struct Bench {
    pub cores: u32,
    pub table: Vec<u32>,
}

/// The common period of every box.
pub const COMMON: u64 = 720_720;

/// Numbers that look like chance, the same in each run.
pub struct Chance(pub u64);

impl Chance {
    pub fn below(&mut self, n: u64) -> u64 {
        self.0 = self
            .0
            .wrapping_mul(6_364_136_223_846_793_005)
            .wrapping_add(1_442_695_040_888_963_407);
        (self.0 >> 33) % n
    }
}

/// Sixteen cores and sixty-four tasks of as many weights in any order, which fill the box; fourteen move.
pub fn full() -> Bench {
    sized(64, 16)
}

/// So many tasks on so many cores: for two cores three tasks of about 11/20, light ones for the rest, and one for what is left.
pub fn sized(tasks: u64, cores: u64) -> Bench {
    let mut chance = Chance(3);
    let periods: Vec<u64> = (5_000..COMMON)
        .filter(|t| COMMON.is_multiple_of(*t))
        .collect();
    let heavy = cores * 3 / 2;
    let mut left = cores * COMMON;
    let mut pairs = Vec::new();
    for i in 0..tasks - 1 {
        let period = periods[chance.below(periods.len() as u64) as usize];
        let thousandths = if i < heavy {
            500 + chance.below(120)
        } else {
            let mean = 1_000 * left / COMMON / (tasks - i);
            mean / 2 + chance.below(mean + 1)
        };
        let cost = (thousandths * period / 1_000).max(1);
        left -= cost * (COMMON / period);
        pairs.push([cost as u32, period as u32]);
    }
    pairs.push([left.min(COMMON) as u32, COMMON as u32]);
    for i in (1..pairs.len()).rev() {
        pairs.swap(i, chance.below(i as u64 + 1) as usize);
    }
    Bench {
        cores: cores as u32,
        table: pairs.concat(),
    }
}

/// One call: `r` release, `f` finish or `l` look, its task or core, and its time.
pub type Call = (char, u64, u64);

impl Bench {
    pub fn tasks(&self) -> u64 {
        self.table.len() as u64 / 2
    }

    /// The table's text.
    pub fn text(&self) -> String {
        let mut text = format!("{}\n", self.cores);
        for task in self.table.chunks(2) {
            text += &format!("{} {}\n", task[0], task[1]);
        }
        text
    }

    /// The table as a host hands it.
    pub fn bytes(&self) -> Vec<u8> {
        self.table.iter().flat_map(|n| n.to_le_bytes()).collect()
    }

    /// So many releases of each task.
    pub fn releases(&self, each: u64) -> Vec<Call> {
        (0..each)
            .flat_map(|k| (1..=self.tasks()).map(move |task| ('r', task, k * COMMON)))
            .collect()
    }

    /// The same, and then so many finishes of each task.
    pub fn finishes(&self, each: u64) -> Vec<Call> {
        let mut calls = self.releases(each);
        calls
            .extend((0..each).flat_map(|k| {
                (1..=self.tasks()).map(move |task| ('f', task, (each + k) * COMMON))
            }));
        calls
    }

    /// Two releases of each task, and then so many looks.
    pub fn looks(&self, number: u64) -> Vec<Call> {
        let mut calls = self.releases(2);
        let cores = u64::from(self.cores);
        calls.extend((0..number).map(|k| ('l', 1 + k % cores, COMMON + k)));
        calls
    }
}

#[cfg(test)]
mod tests {
    use super::*;
    use second::record::Record;

    #[test]
    fn full_box_is_full() {
        let bench = full();
        let tasks = bench.table.chunks(2);
        let sum: u64 = tasks
            .map(|task| u64::from(task[0]) * (COMMON / u64::from(task[1])))
            .sum();
        assert_eq!((bench.tasks(), sum), (64, 16 * COMMON));
    }

    /// A refused call would be timed as one that does nothing.
    #[test]
    fn no_call_is_refused() {
        let bench = full();
        for calls in [bench.finishes(8), bench.looks(512)] {
            let mut record = Record::fresh(bench.cores, &bench.table).expect("the table is taken");
            for (call, number, time) in calls {
                let taken = match call {
                    'r' => record.release(number, time).is_ok(),
                    'f' => record.finish(number, time).is_ok(),
                    _ => record.look(number, time).is_ok(),
                };
                assert!(taken, "{call} {number} {time}");
            }
        }
    }
}
