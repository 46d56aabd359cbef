//! A table's text: reading it and writing it.

use crate::limits::TEXT;

/// Most digits of a number below 2^32.
const DIGITS: usize = 10;

/// The core count and the table of a text, or the line that can't be read.
pub fn read_text(text: &[u8]) -> Result<(u32, Vec<u32>), usize> {
    if text.is_empty() || text.len() > TEXT {
        return Err(0);
    }
    let mut lines = lines(text).enumerate();
    let cores = lines.next().and_then(|(_, line)| read_number(line?));
    let cores = cores.ok_or(1_usize)?;
    let mut table = Vec::new();
    for (index, line) in lines {
        let (cost, period) = line.and_then(read_task).ok_or(index + 1)?;
        table.push(cost);
        table.push(period);
    }
    Ok((cores, table))
}

/// The text of a core count and a table.
pub fn write_text(cores: u32, table: &[u32]) -> Vec<u8> {
    let mut text = format!("{cores}\n");
    for task in table.chunks_exact(2) {
        text += &format!("{} {}\n", task[0], task[1]);
    }
    text.into_bytes()
}

/// The first line without its newline, and what follows; None where no line is ended.
pub fn split_line(text: &[u8]) -> Option<(&[u8], &[u8])> {
    let end = text.iter().position(|&byte| byte == b'\n')?;
    Some((&text[..end], &text[end + 1..]))
}

/// The lines without their newlines; None for a last line that has none.
pub fn lines(text: &[u8]) -> impl Iterator<Item = Option<&[u8]>> {
    text.split_inclusive(|&byte| byte == b'\n')
        .map(|line| line.strip_suffix(b"\n"))
}

/// A decimal number of at most so many digits (fewer than 20), without leading zeros.
pub fn read_digits(digits: &[u8], most: usize) -> Option<u64> {
    let leading_zero = digits.len() > 1 && digits[0] == b'0';
    if digits.is_empty() || digits.len() > most || leading_zero {
        return None;
    }
    let mut number = 0;
    for &digit in digits {
        if !digit.is_ascii_digit() {
            return None;
        }
        number = number * 10 + u64::from(digit - b'0');
    }
    Some(number)
}

/// A number below 2^32.
pub fn read_number(digits: &[u8]) -> Option<u32> {
    u32::try_from(read_digits(digits, DIGITS)?).ok()
}

/// A task's cost and period with one blank between.
fn read_task(line: &[u8]) -> Option<(u32, u32)> {
    let blank = line.iter().position(|&byte| byte == b' ')?;
    let cost = read_number(&line[..blank])?;
    let period = read_number(&line[blank + 1..])?;
    Some((cost, period))
}
