//! `compare --PROGRAM CMD .. [--seed N] [--seconds S]`, a command for each of the product's programs.
#![forbid(unsafe_code)]

use compare::options::Options;
use compare::{report, run};
use std::process::ExitCode;

fn main() -> ExitCode {
    let options = match Options::read(std::env::args().skip(1)) {
        Ok(options) => options,
        Err(wrong) => {
            eprintln!("compare: {wrong}\n{}", Options::USAGE);
            return ExitCode::from(2);
        }
    };
    println!("compare: seed {}", options.seed);
    match run::run(&options) {
        Ok(outcome) if report::report(&options, &outcome) => ExitCode::SUCCESS,
        Ok(_) => ExitCode::FAILURE,
        Err(error) => {
            eprintln!("compare: {error}");
            ExitCode::from(2)
        }
    }
}
