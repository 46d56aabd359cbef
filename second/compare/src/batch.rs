//! One input of a process, cut into the cases that are compared.

use crate::command::Said;

/// A case: what is asked, what must be answered, and the refusals met (0 for none).
pub struct Case {
    pub input: Vec<u8>,
    pub answer: Vec<u8>,
    pub met: Vec<u32>,
}

/// What is read in an answer to an input.
pub type Reader = fn(&[u8], &[u8]) -> Vec<u8>;

/// The cases of one process, with what stands before the first.
#[derive(Default)]
pub struct Batch {
    /// The place of the asked program among the kind's.
    pub program: usize,
    pub head: Vec<u8>,
    pub cases: Vec<Case>,
    /// Whether a case stands on those before it.
    pub in_turn: bool,
    /// Reads what the product wrote, where what is read is compared too.
    pub reader: Option<Reader>,
}

/// The first case that the product answers otherwise.
pub struct Difference {
    /// Its place in the batch, from 0.
    pub case: usize,
    /// Where in its answer the first other byte is.
    pub byte: usize,
    /// All that the product said from the case's answer on.
    pub said: Vec<u8>,
}

impl Batch {
    /// A batch of one case.
    pub fn single(input: Vec<u8>, answer: Vec<u8>, met: Vec<u32>) -> Self {
        Batch {
            cases: vec![Case { input, answer, met }],
            ..Batch::default()
        }
    }

    /// What the program said, and what is read in it.
    pub fn read(&self, mut said: Said) -> Said {
        if let Some(reader) = self.reader {
            said.bytes.extend(reader(&self.input(), &said.bytes));
        }
        said
    }

    /// What the process reads.
    pub fn input(&self) -> Vec<u8> {
        self.input_of_cases(&self.cases)
    }

    /// What the process reads for one case, with those that it stands on.
    pub fn input_of(&self, case: usize) -> Vec<u8> {
        let first = if self.in_turn { 0 } else { case };
        self.input_of_cases(&self.cases[first..=case])
    }

    fn input_of_cases(&self, cases: &[Case]) -> Vec<u8> {
        let parts = cases.iter().map(|case| &case.input[..]);
        [&self.head[..]]
            .into_iter()
            .chain(parts)
            .collect::<Vec<_>>()
            .concat()
    }

    /// Compares all that the product said, byte by byte and to the end.
    pub fn difference(&self, said: &[u8]) -> Option<Difference> {
        let mut rest = said;
        for (case, Case { answer, .. }) in self.cases.iter().enumerate() {
            let last = case + 1 == self.cases.len();
            if !rest.starts_with(answer) || last && rest.len() > answer.len() {
                let byte = rest.iter().zip(answer).take_while(|(a, b)| a == b).count();
                let said = rest.to_vec();
                return Some(Difference { case, byte, said });
            }
            rest = &rest[answer.len()..];
        }
        None
    }
}
