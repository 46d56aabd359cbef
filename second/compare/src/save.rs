//! Prints a difference and saves its input, so that it can be run again.

use crate::batch::{Batch, Difference};
use crate::command::Said;
use std::fs;
use std::io;
use std::path::Path;

/// Where inputs are saved, below the directory of the run.
const FOLDER: &str = "target/compare";
/// Bytes shown before and after the first other byte.
const SHOWN: usize = 100;

/// A batch that went wrong: an answer that differs, a program that failed, or both.
pub struct Found {
    difference: Difference,
    failed: Option<String>,
}

impl Found {
    /// Compares what a program said; one that failed has differed even if it said all.
    pub fn of(batch: &Batch, said: Said) -> Option<Self> {
        let difference = batch.difference(&said.bytes);
        let difference = match (difference, &said.failed) {
            (None, None) => return None,
            (Some(difference), _) => difference,
            (None, Some(_)) => Difference {
                case: 0,
                byte: 0,
                said: said.bytes,
            },
        };
        let failed = said.failed;
        Some(Found { difference, failed })
    }
}

/// Saves the case with what it stands on, both answers and the whole batch, and says where.
pub fn save(seed: u64, kind: &str, number: u64, batch: &Batch, found: &Found) -> io::Result<()> {
    let Difference { case, byte, said } = &found.difference;
    let right = &batch.cases[*case].answer;
    let folder = Path::new(FOLDER);
    fs::create_dir_all(folder)?;
    let file = |end: &str| folder.join(format!("{kind}-{seed}-{number}.{end}"));
    fs::write(file("in"), batch.input_of(*case))?;
    fs::write(file("product"), said)?;
    fs::write(file("second"), right)?;
    println!("DIFFERENCE: kind {kind}, seed {seed}, batch {number}, case {case}, byte {byte}");
    if let Some(failed) = &found.failed {
        println!("  the product's program failed: {failed}");
    }
    println!("  product: {}", shown(said, *byte));
    println!("  second:  {}", shown(right, *byte));
    println!("  the case is {}", file("in").display());
    if batch.cases.len() > 1 {
        fs::write(file("batch.in"), batch.input())?;
        println!("  the whole batch is {}", file("batch.in").display());
    }
    Ok(())
}

/// The bytes around a place, in one line.
fn shown(bytes: &[u8], place: usize) -> String {
    let first = place.saturating_sub(SHOWN).min(bytes.len());
    let last = (place + SHOWN).min(bytes.len());
    let before = if first > 0 { "…" } else { "" };
    let after = if last < bytes.len() { "…" } else { "" };
    format!("{before}{}{after}", bytes[first..last].escape_ascii())
}
