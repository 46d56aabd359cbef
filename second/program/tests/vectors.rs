//! Every example input in the folder named by VECTORS gives its right output.
#![forbid(unsafe_code)]

use second::day::read_day;
use second::{rehearse, ticking};
use std::fs;
use std::path::{Path, PathBuf};

/// The folder of examples, with the reason if it is not given.
fn folder(part: &str) -> PathBuf {
    let folder = std::env::var_os("VECTORS")
        .expect("set VECTORS to the folder that holds the folders of examples");
    Path::new(&folder).join(part)
}

/// Runs each input of a folder, which has so many, and compares every byte.
fn compare(part: &str, number: usize, work: fn(&[u8]) -> Vec<u8>) {
    let folder = folder(part);
    let mut tested = 0;
    for entry in fs::read_dir(&folder).expect("the folder can be read") {
        let input = entry.expect("the folder can be read").path();
        if input.extension().is_some_and(|end| end == "in") {
            let given = fs::read(&input).expect("the input can be read");
            let right = fs::read(input.with_extension("out")).expect("there is an output");
            let answer = String::from_utf8(work(&given)).expect("the answer is text");
            assert_eq!(answer, String::from_utf8_lossy(&right), "{input:?}");
            tested += 1;
        }
    }
    assert_eq!(tested, number, "{folder:?}");
}

#[test]
fn plans() {
    compare("plan", 240, second::program::program);
}

#[test]
fn calls() {
    compare("calls", 10, second::player::calls);
    compare("always", 80, second::player::calls);
    compare("early", 120, second::player::calls);
}

#[test]
fn sheets() {
    compare("sheet", 100, second::sheets::sheet);
    compare("table", 60, second::sheets::table);
    compare("office", 100, second::office::office);
}

/// Tick by tick where the day is short, else by the program.
fn ticked(input: &[u8]) -> Vec<u8> {
    match read_day(input) {
        Ok(day) if day.stop < 1_000 => ticking::run(&day),
        _ => rehearse::rehearse(input),
    }
}

#[test]
fn rehearsals() {
    compare("rehearse", 120, rehearse::rehearse);
    compare("rehearse", 120, ticked);
}
