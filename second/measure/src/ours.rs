//! The product's rounds through the calls for C: `rounds.c` times them itself.

use crate::rounds::{Rounds, Timed};
use std::io::Write;
use std::process::{Command, Stdio};

/// What a program writes on an input.
fn said(command: &[String], input: &str) -> String {
    let mut child = Command::new(&command[0])
        .args(&command[1..])
        .stdin(Stdio::piped())
        .stdout(Stdio::piped())
        .spawn()
        .expect("the program starts");
    let mut pipe = child.stdin.take().expect("a pipe");
    pipe.write_all(input.as_bytes()).expect("the input fits");
    drop(pipe);
    let said = child.wait_with_output().expect("the program ends").stdout;
    String::from_utf8(said).expect("numbers")
}

/// Times rounds of a kind.
pub fn time(command: &[String], of: &Rounds) -> Timed {
    let said = said(command, &of.input());
    let numbers: Vec<u64> = said
        .split_whitespace()
        .filter_map(|word| word.parse().ok())
        .collect();
    let &[nanoseconds, sum] = &numbers[..] else {
        panic!("rounds of {} say '{said}'", of.kind);
    };
    Timed { nanoseconds, sum }
}

#[cfg(test)]
mod tests {
    use super::*;
    use crate::boxes::Bench;
    use std::path::Path;

    /// `rounds.c` with a stand-in for the product, whose answers tell what it was handed.
    fn built() -> Vec<String> {
        let here = Path::new(env!("CARGO_MANIFEST_DIR"));
        let own = std::env::current_exe().expect("the test's own path");
        let program = own.with_file_name("rounds_of_the_stand_in");
        let compiled = Command::new("cc")
            .args(["-std=c99", "-Wall", "-Wextra", "-Wpedantic", "-Werror"])
            .arg("-I")
            .arg(here.join("../../include"))
            .args(["rounds.c", "stand_in.c"].map(|file| here.join(file)))
            .arg("-o")
            .arg(&program)
            .status()
            .expect("cc starts");
        assert!(compiled.success());
        vec![program.to_str().expect("a path in UTF-8").to_string()]
    }

    #[test]
    fn rounds_are_made_of_what_is_written() {
        let bench = Bench {
            cores: 2,
            table: vec![5, 700, 3, 1_000_000],
        };
        let table: u32 = [5, 700, 3, 1_000_000].iter().sum();
        let taken = u64::from(2 * table);
        let program = built();
        let kinds = [
            ('e', 0),
            ('p', taken),
            ('a', taken),
            ('l', 3),
            ('s', 13),
            ('c', 1_007 + 2_008 + 3_009),
        ];
        for (kind, sum) in kinds {
            let rounds = Rounds {
                bench: &bench,
                kind,
                laps: 3,
                rounds: 2,
                calls: vec![('r', 1, 7), ('f', 1, 8), ('l', 1, 9)],
            };
            assert_eq!(time(&program, &rounds).sum, 6 * sum, "{kind}");
        }
    }
}
