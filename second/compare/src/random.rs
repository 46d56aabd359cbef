//! Numbers that look random, the same ones for the same seed (splitmix64).

const STEP: u64 = 0x9e37_79b9_7f4a_7c15;

pub struct Random(u64);

impl Random {
    pub fn new(seed: u64) -> Self {
        Random(seed)
    }

    /// The numbers of one batch of one kind, whatever was asked before it.
    pub fn of_batch(seed: u64, kind: usize, number: u64) -> Self {
        let kind = Random(seed ^ kind as u64).number();
        Random(Random(kind ^ number).number())
    }

    pub fn number(&mut self) -> u64 {
        self.0 = self.0.wrapping_add(STEP);
        let mut mixed = self.0;
        mixed = (mixed ^ (mixed >> 30)).wrapping_mul(0xbf58_476d_1ce4_e5b9);
        mixed = (mixed ^ (mixed >> 27)).wrapping_mul(0x94d0_49bb_1331_11eb);
        mixed ^ (mixed >> 31)
    }

    /// A number from 0 to below the limit.
    pub fn below(&mut self, limit: u64) -> u64 {
        self.number() % limit
    }

    /// A place in a list of so many.
    pub fn place(&mut self, length: usize) -> usize {
        self.below(length as u64) as usize
    }

    /// A number from the first to the last, both included.
    pub fn between(&mut self, first: u64, last: u64) -> u64 {
        first + self.below(last - first + 1)
    }

    /// True once in so many times.
    pub fn one_in(&mut self, times: u64) -> bool {
        self.below(times) == 0
    }

    pub fn pick<T: Copy>(&mut self, from: &[T]) -> T {
        from[self.place(from.len())]
    }

    /// A number of any length in bits, small ones as often as large ones.
    pub fn any_length(&mut self) -> u64 {
        let cut = self.below(64);
        self.number() >> cut
    }
}
