//! Stands in for the product's programs in the tests: `stand_in PROGRAM [FAULT]` answers as the second program would.
#![forbid(unsafe_code)]

mod early;
mod host;
mod input;
mod lent_records;
mod rehearse;

use std::io::{self, Read, Write};
use std::process::ExitCode;

fn main() -> ExitCode {
    let words: Vec<String> = std::env::args().skip(1).collect();
    let mut input = Vec::new();
    let read = io::stdin().lock().read_to_end(&mut input);
    read.expect("the input can be read");
    let fault = words.get(1).map_or("", String::as_str);
    let mut answer = match words[0].as_str() {
        "plan" => second::program::program(&input),
        "calls" => second::player::calls(&input),
        "host" => host::answers(&input),
        "sheet" => second::sheets::sheet(&input),
        "table" => second::sheets::table(&input),
        "office" => second::office::office(&input),
        "rehearse" => rehearse::answer(&input, fault),
        "lent_records" => lent_records::answers(&input, fault),
        _ => return ExitCode::from(2),
    };
    spoil(&mut answer, fault);
    let written = io::stdout().lock().write_all(&answer);
    written.expect("the output can be written");
    ExitCode::from(if fault == "failed" { 3 } else { 0 })
}

/// Puts the named fault into an answer.
fn spoil(answer: &mut Vec<u8>, fault: &str) {
    let middle = answer.len() / 2;
    match fault {
        "changed" if !answer.is_empty() => answer[middle] ^= 1,
        "short" => drop(answer.pop()),
        "long" => answer.push(b'\n'),
        "silent" => answer.clear(),
        _ => {}
    }
}
