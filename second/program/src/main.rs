//! `second PROGRAM` answers as the product's program of that name: standard input to standard output.
#![forbid(unsafe_code)]

use second::{office, player, program, rehearse, sheets};
use std::io::{self, Read, Write};
use std::process::ExitCode;

const USAGE: &str = "usage: second plan | calls | sheet | table | office | rehearse";

fn main() -> ExitCode {
    let words: Vec<String> = std::env::args().skip(1).collect();
    let words: Vec<&str> = words.iter().map(String::as_str).collect();
    let done = match words[..] {
        ["plan"] => answer(program::program),
        ["calls"] => answer(player::calls),
        ["sheet"] => answer(sheets::sheet),
        ["table"] => answer(sheets::table),
        ["office"] => answer(office::office),
        ["rehearse"] => answer(rehearse::rehearse),
        _ => Err(io::Error::other(USAGE)),
    };
    match done {
        Ok(()) => ExitCode::SUCCESS,
        Err(error) => {
            eprintln!("second: {error}");
            ExitCode::from(2)
        }
    }
}

/// Reads all of the input, then writes the answer.
fn answer(work: fn(&[u8]) -> Vec<u8>) -> io::Result<()> {
    let mut input = Vec::new();
    io::stdin().lock().read_to_end(&mut input)?;
    io::stdout().lock().write_all(&work(&input))
}
