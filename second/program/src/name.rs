//! Names of jobs.

use crate::limits::NAME;
use std::collections::BTreeSet;

/// A name of 1 to 12 small letters, else None.
pub fn read_name(name: &[u8]) -> Option<&[u8]> {
    let letters = name.iter().all(u8::is_ascii_lowercase);
    (letters && !name.is_empty() && name.len() <= NAME).then_some(name)
}

/// Whether a name stands twice, whatever stands between.
pub fn repeated(names: &[&[u8]]) -> bool {
    let mut seen = BTreeSet::new();
    !names.iter().all(|name| seen.insert(name))
}
