//! The programs that read a sheet: a line of cores and the sheet in, its listing or its table's text out.

use crate::listing;
use crate::plan::Plan;
use crate::program::unreadable;
use crate::refusal::Refusal;
use crate::sheet::{read_sheet, Sheet};
use crate::text::{read_number, split_line, write_text};

/// A sheet that is taken.
struct Taken<'a> {
    cores: u32,
    sheet: Sheet<'a>,
    plan: Plan,
}

/// What `sheet` writes: the listing, the tick length and the names, or a refusal.
pub fn sheet(input: &[u8]) -> Vec<u8> {
    take(input).map_or_else(|refused| refused, |taken| list(&taken))
}

/// What `table` writes: the table's text, or a refusal.
pub fn table(input: &[u8]) -> Vec<u8> {
    let text = |taken: Taken| write_text(taken.cores, &taken.sheet.table);
    take(input).map_or_else(|refused| refused, text)
}

/// Reads and plans an input, or gives the refusal's line.
fn take(input: &[u8]) -> Result<Taken<'_>, Vec<u8>> {
    let (cores, sheet) = split_cores(input).ok_or_else(|| unreadable(1))?;
    let sheet = read_sheet(sheet).map_err(|no| Refusal::plain(no).line())?;
    let plan = sheet.plan(cores).map_err(|refusal| refusal.line())?;
    Ok(Taken { cores, sheet, plan })
}

/// The core count of the first line, and the sheet after it.
fn split_cores(input: &[u8]) -> Option<(u32, &[u8])> {
    let (cores, sheet) = split_line(input)?;
    Some((read_number(cores)?, sheet))
}

/// The listing, then the tick length, then each task's name.
fn list(taken: &Taken) -> Vec<u8> {
    let mut lines = format!("tick {}\n", taken.sheet.tick);
    for (index, name) in taken.sheet.names.iter().enumerate() {
        lines += &format!("name {} {}\n", index + 1, name.escape_ascii());
    }
    [listing::of_plan(&taken.plan), lines.into_bytes()].concat()
}
