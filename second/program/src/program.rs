//! The program: a table's text in, its listing or a refusal out.

use crate::listing;
use crate::plan::plan;
use crate::refusal::UNREADABLE;
use crate::text::read_text;

/// What the program writes for a text.
pub fn program(text: &[u8]) -> Vec<u8> {
    let (cores, table) = match read_text(text) {
        Ok(read) => read,
        Err(line) => return unreadable(line),
    };
    match plan(cores, &table) {
        Ok(plan) => listing::of_plan(&plan),
        Err(refusal) => refusal.line(),
    }
}

/// The answer to a text whose given line can't be read.
pub fn unreadable(line: usize) -> Vec<u8> {
    format!("refused {UNREADABLE} line {line}\n").into_bytes()
}
