//! The rehearsal of a day, text to text: both programs run as processes on the same file, with their starts.

use crate::day;
use std::fs::{self, File};
use std::path::{Path, PathBuf};
use std::process::{Command, Stdio};
use std::time::Instant;

/// A program and its words.
pub type Words = Vec<String>;

/// A day's figure: its name, its file, and the nanoseconds of ours and of the second program each time.
pub struct Rehearsal {
    pub name: &'static str,
    file: PathBuf,
    pub times: Vec<[f64; 2]>,
}

/// The day, and the same box without arrivals, which tells how much of it is the start of a process.
pub fn figures(folder: &Path) -> Vec<Rehearsal> {
    let figure = |name, text: String| {
        let file = folder.join(format!("{name}.in"));
        fs::write(&file, text).expect("the day is written");
        Rehearsal {
            name,
            file,
            times: Vec::new(),
        }
    };
    vec![
        figure("rehearsal", day::day()),
        figure("rehearsal_of_nothing", day::empty()),
    ]
}

impl Rehearsal {
    /// Takes it once of both programs, which must answer the same.
    pub fn take(&mut self, programs: &[Words; 2]) {
        let [ours, second] = [0, 1].map(|side| time(&programs[side], &self.file));
        assert!(ours.1 == second.1, "answers to {}", self.name);
        self.times.push([ours.0, second.0]);
    }
}

/// Nanoseconds from a program's start to its end, and what it writes.
fn time(program: &[String], file: &Path) -> (f64, Vec<u8>) {
    let input = File::open(file).expect("the day is there");
    let start = Instant::now();
    let child = Command::new(&program[0])
        .args(&program[1..])
        .stdin(input)
        .stdout(Stdio::piped())
        .spawn()
        .expect("the program starts");
    let output = child.wait_with_output().expect("the program ends");
    let spent = start.elapsed().as_nanos() as f64;
    assert!(output.status.success(), "{program:?} failed");
    (spent, output.stdout)
}

#[cfg(test)]
mod tests {
    use super::*;

    /// Files in a folder of its own, and two programs.
    fn taken(name: &str, programs: [&str; 2]) -> Vec<Rehearsal> {
        let folder = std::env::temp_dir().join(format!("measure-{name}-{}", std::process::id()));
        fs::create_dir_all(&folder).expect("a folder can be made");
        let mut figures = figures(&folder);
        let programs = programs.map(|word| vec![word.to_string()]);
        figures.iter_mut().for_each(|figure| figure.take(&programs));
        fs::remove_dir_all(&folder).expect("the folder is there");
        figures
    }

    #[test]
    fn both_sides_are_timed() {
        for figure in taken("alike", ["cat", "cat"]) {
            assert!(figure.times[0].iter().all(|&time| time > 0.0));
        }
    }

    #[test]
    #[should_panic(expected = "answers to rehearsal")]
    fn other_answers_are_found() {
        taken("unlike", ["cat", "sort"]);
    }
}
