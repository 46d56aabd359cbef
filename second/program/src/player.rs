//! The call player: a table and calls in, one answer a call out.

use crate::choice::Choice;
use crate::limits::CALLS;
use crate::program::unreadable;
use crate::record::Record;
use crate::text::{lines, read_digits, read_text};

/// Most digits of a call's number.
const DIGITS: usize = 15;
/// The line between the table and the calls.
const DIVIDER: &[u8] = b"calls";

/// One call on the record.
enum Call {
    Release { task: u64, time: u64 },
    Finish { task: u64, time: u64 },
    Look { core: u64, time: u64 },
}

/// An input that could be read.
struct Play {
    cores: u32,
    table: Vec<u32>,
    calls: Vec<Call>,
}

/// What the player writes for an input.
pub fn calls(input: &[u8]) -> Vec<u8> {
    let play = match read_play(input) {
        Ok(play) => play,
        Err(line) => return unreadable(line),
    };
    let mut record = match Record::fresh(play.cores, &play.table) {
        Ok(record) => record,
        Err(refusal) => return refusal.line(),
    };
    let mut answers = String::new();
    for call in &play.calls {
        answers += &answer(&mut record, call).unwrap_or_else(|no| format!("refused {no}"));
        answers.push('\n');
    }
    answers.into_bytes()
}

/// Reads the table, then the divider, then every call, or names the line that can't be read.
fn read_play(input: &[u8]) -> Result<Play, usize> {
    if input.is_empty() || input.len() > CALLS {
        return Err(0);
    }
    let mut before = 0;
    let mut bytes = 0;
    for line in lines(input) {
        if line == Some(DIVIDER) {
            break;
        }
        before += 1;
        bytes += line.map_or(input.len() - bytes, |line| line.len() + 1);
    }
    let (cores, table) = read_text(&input[..bytes])?;
    if bytes == input.len() {
        return Err(before + 1);
    }
    let mut calls = Vec::new();
    for (index, line) in lines(input).enumerate().skip(before + 1) {
        calls.push(line.and_then(read_call).ok_or(index + 1)?);
    }
    Ok(Play {
        cores,
        table,
        calls,
    })
}

/// A call's name and two numbers with one blank between.
fn read_call(line: &[u8]) -> Option<Call> {
    let mut words = line.split(|&byte| byte == b' ');
    let name = words.next()?;
    let first = read_digits(words.next()?, DIGITS)?;
    let time = read_digits(words.next()?, DIGITS)?;
    if words.next().is_some() {
        return None;
    }
    match name {
        b"release" => Some(Call::Release { task: first, time }),
        b"finish" => Some(Call::Finish { task: first, time }),
        b"look" => Some(Call::Look { core: first, time }),
        _ => None,
    }
}

/// Makes a call and words its answer, or gives the refusal's number.
fn answer(record: &mut Record, call: &Call) -> Result<String, u32> {
    match *call {
        Call::Release { task, time } => {
            let (core, deadline) = record.release(task, time)?;
            Ok(format!("core {core} deadline {deadline}"))
        }
        Call::Finish { task, time } => {
            let late = record.finish(task, time)?;
            Ok(format!("late {late}"))
        }
        Call::Look { core, time } => Ok(word_choice(record.look(core, time)?)),
    }
}

/// A core's choice in words.
fn word_choice(choice: Choice) -> String {
    match choice {
        Choice::Idle => "idle".to_string(),
        Choice::Fixed { task, deadline } => format!("fixed {task} deadline {deadline}"),
        Choice::Mover {
            task,
            deadline,
            upper,
        } => {
            let place = if upper { "upper" } else { "lower" };
            format!("{place} {task} deadline {deadline}")
        }
    }
}
