//! The program that writes a sheet: a table's text, a tick length and names in, the sheet or a refusal out.

use crate::name::read_name;
use crate::program::unreadable;
use crate::refusal::{Refusal, SHEET_LINE, TICK_LENGTH};
use crate::sheet::{read_tick, Sheet};
use crate::text::{lines, read_text, split_line};

/// What the line between the table and the names starts with.
const DIVIDER: &[u8] = b"names ";

/// What the program writes for an input.
pub fn office(input: &[u8]) -> Vec<u8> {
    write(input).unwrap_or_else(|refused| refused)
}

/// The sheet, or the refusal's line.
fn write(input: &[u8]) -> Result<Vec<u8>, Vec<u8>> {
    let (text, after) = divide(input);
    let (cores, table) = read_text(text).map_err(unreadable)?;
    let after = after.ok_or_else(|| unreadable(lines(text).count() + 1))?;
    let sheet = name(table, after).map_err(|no| Refusal::plain(no).line())?;
    let planned = sheet.plan(cores).map_err(|refusal| refusal.line());
    planned.map(|_| sheet.write())
}

/// The table's text, and what follows the divider's word if there is one.
fn divide(input: &[u8]) -> (&[u8], Option<&[u8]>) {
    let mut before = 0;
    for line in input.split_inclusive(|&byte| byte == b'\n') {
        if line.starts_with(DIVIDER) {
            let after = &input[before + DIVIDER.len()..];
            return (&input[..before], Some(after));
        }
        before += line.len();
    }
    (input, None)
}

/// The sheet of a table, a tick length and a name a line: refusal 19, then 17.
fn name(table: Vec<u32>, after: &[u8]) -> Result<Sheet<'_>, u32> {
    let (tick, names) = split_line(after).ok_or(TICK_LENGTH)?;
    let tick = read_tick(tick).ok_or(TICK_LENGTH)?;
    let names = lines(names).map(|line| line.and_then(read_name));
    let names: Vec<&[u8]> = names.collect::<Option<_>>().ok_or(SHEET_LINE)?;
    if names.len() != table.len() / 2 {
        return Err(SHEET_LINE);
    }
    Ok(Sheet { tick, names, table })
}
