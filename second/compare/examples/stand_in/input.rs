//! Numbers read off an input, least byte first.

pub struct Input<'a>(pub &'a [u8]);

impl<'a> Input<'a> {
    pub fn is_empty(&self) -> bool {
        self.0.is_empty()
    }

    pub fn bytes(&mut self, length: usize) -> &'a [u8] {
        let (taken, rest) = self.0.split_at(length);
        self.0 = rest;
        taken
    }

    /// A number of so many bytes.
    pub fn number(&mut self, length: usize) -> u64 {
        let bytes = self.bytes(length).iter().rev();
        bytes.fold(0, |number, &byte| number << 8 | u64::from(byte))
    }
}
