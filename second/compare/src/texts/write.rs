//! A table as the program's text.

use crate::tables::table::Table;

/// A line of cores, then a line for each task; an odd number is left alone in its line.
pub fn text(table: &Table) -> Vec<u8> {
    let mut text = format!("{}\n", table.cores);
    for task in table.numbers.chunks(2) {
        let words: Vec<String> = task.iter().map(u32::to_string).collect();
        text += &words.join(" ");
        text.push('\n');
    }
    text.into_bytes()
}
