//! The text of a rehearsal, written as it goes.

use crate::limits::CORES;

/// The longest line of a finish and of a span together is below this; a day writes about as many pairs as it has arrivals.
const PAIR: usize = 128;

pub(crate) struct Diary(Vec<u8>);

/// A core's run without a break: the task's place, the run's number, and the first tick.
#[derive(Clone, Copy, PartialEq, Eq)]
pub(crate) struct Span {
    pub(crate) index: usize,
    pub(crate) run: u64,
    pub(crate) from: u64,
}

/// What each core is at.
pub(crate) type Spans = [Option<Span>; CORES];

impl Diary {
    /// An empty text with room for so many runs.
    pub(crate) fn new(runs: usize) -> Self {
        Diary(Vec::with_capacity(PAIR * runs))
    }

    /// Words, then a number.
    fn put(&mut self, words: &str, mut number: u64) -> &mut Self {
        let mut digits = [0; 20];
        let mut first = digits.len();
        loop {
            first -= 1;
            digits[first] = b'0' + (number % 10) as u8;
            number /= 10;
            if number == 0 {
                break;
            }
        }
        self.0.extend_from_slice(words.as_bytes());
        self.0.extend_from_slice(&digits[first..]);
        self
    }

    fn end(&mut self) {
        self.0.push(b'\n');
    }

    pub(crate) fn finish(&mut self, core: usize, index: usize, run: u64, at: u64, late: i64) {
        let words = if late < 0 { " late -" } else { " late " };
        self.put("finish core ", core as u64 + 1)
            .put(" task ", index as u64 + 1)
            .put(" run ", run)
            .put(" at ", at)
            .put(words, late.unsigned_abs())
            .end();
    }

    pub(crate) fn refused(&mut self, no: u32, arrival: usize, task: u64, at: u64) {
        self.put("refused ", no.into())
            .put(" arrival ", arrival as u64)
            .put(" task ", task)
            .put(" at ", at)
            .end();
    }

    pub(crate) fn span(&mut self, core: usize, span: &Span, to: u64) {
        self.put("span core ", core as u64 + 1)
            .put(" task ", span.index as u64 + 1)
            .put(" run ", span.run)
            .put(" from ", span.from)
            .put(" to ", to)
            .end();
    }

    pub(crate) fn stop(&mut self, at: u64) {
        self.put("stop ", at).end();
    }

    /// A run of a task with its core and deadline, and what it has had of its length.
    pub(crate) fn unfinished(&mut self, [task, run, core, deadline, had, length]: [u64; 6]) {
        self.put("unfinished task ", task)
            .put(" run ", run)
            .put(" core ", core)
            .put(" deadline ", deadline)
            .put(" had ", had)
            .put(" of ", length)
            .end();
    }

    pub(crate) fn into_text(self) -> Vec<u8> {
        self.0
    }
}
