//! The whole program against stand-ins that answer right, and against ones that do not.
#![forbid(unsafe_code)]

use std::collections::BTreeSet;
use std::ffi::OsStr;
use std::fs;
use std::path::{Path, PathBuf};
use std::process::{Command, Output};

/// Each program, and the kind that asks it.
const PROGRAMS: [[&str; 2]; 8] = [
    ["plan", "plan"],
    ["host", "host"],
    ["calls", "calls"],
    ["lent_records", "lent_records"],
    ["sheet", "sheets"],
    ["table", "sheets"],
    ["office", "sheets"],
    ["rehearse", "rehearsals"],
];

/// The example `stand_in`, which is built beside the program.
fn stand_in() -> PathBuf {
    let program = Path::new(env!("CARGO_BIN_EXE_compare"));
    let folder = program.parent().expect("the program is in a folder");
    folder.join("examples/stand_in")
}

/// A folder of its own for a run.
fn folder(name: &str) -> PathBuf {
    let folder = Path::new(env!("CARGO_TARGET_TMPDIR")).join(name);
    let _ = fs::remove_dir_all(&folder);
    fs::create_dir_all(&folder).expect("a folder can be made");
    folder
}

fn run<Word: AsRef<OsStr>>(folder: &Path, words: &[Word]) -> Output {
    let mut command = Command::new(env!("CARGO_BIN_EXE_compare"));
    let output = command.current_dir(folder).args(words).output();
    output.expect("the program starts")
}

fn text(output: &Output) -> String {
    String::from_utf8_lossy(&output.stdout).into_owned()
}

/// The options of all programs of a kind, one with a fault.
fn options(kind: &str, faulty: &str, fault: &str) -> Vec<String> {
    let mut words = Vec::new();
    for [program, _] in PROGRAMS.iter().filter(|[_, asking]| *asking == kind) {
        let fault = if *program == faulty { fault } else { "" };
        words.push(format!("--{program}"));
        words.push(format!("{} {program} {fault}", stand_in().display()));
    }
    words
}

#[test]
fn right_answers() {
    let kinds = BTreeSet::from(PROGRAMS.map(|[_, kind]| kind));
    let mut words = ["--seed", "7", "--seconds", "3"]
        .map(str::to_string)
        .to_vec();
    words.extend(kinds.iter().flat_map(|kind| options(kind, "", "")));
    let output = run(&folder("right"), &words);
    let said = text(&output);
    assert!(output.status.success(), "{said}");
    assert!(said.contains("seed 7, no difference"), "{said}");
    for kind in kinds {
        assert!(said.contains(&format!("{kind}: refusals ")), "{said}");
    }
}

/// A fault in one program is found, named and saved.
fn finds(program: &str, kind: &str, fault: &str) {
    let folder = folder(&format!("{program}-{fault}"));
    let mut words = options(kind, program, fault);
    // It ends at the first difference.
    words.extend(["--seed", "9", "--seconds", "20"].map(str::to_string));
    let output = run(&folder, &words);
    let said = text(&output);
    assert_eq!(output.status.code(), Some(1), "{program} {fault}: {said}");
    let found = format!("DIFFERENCE: kind {kind}, seed 9, batch ");
    assert!(said.contains(&found), "{said}");
    assert!(said.contains(&format!("asked of {program}\n")), "{said}");
    let saved = fs::read_dir(folder.join("target/compare")).expect("a folder of inputs");
    let saved = saved.map(|file| file.expect("a file").path());
    for right in saved.filter(|file| file.extension().is_some_and(|end| end == "second")) {
        answers_again(program, &right);
    }
}

/// The saved case has, by itself, the answer that is saved beside it.
fn answers_again(program: &str, right: &Path) {
    let input = fs::File::open(right.with_extension("in")).expect("the input is there");
    let right = fs::read(right).expect("the answer can be read");
    let answer = Command::new(stand_in()).arg(program).stdin(input).output();
    let answer = answer.expect("the stand-in starts").stdout;
    // Those that a case stands on are answered before it; what is read in an answer stands after it.
    let alike = answer.ends_with(&right) || right.starts_with(&answer);
    assert!(!answer.is_empty() && alike, "{program}");
}

#[test]
fn wrong_answers() {
    for [program, kind] in PROGRAMS {
        for fault in ["changed", "short", "long", "silent", "failed"] {
            finds(program, kind, fault);
        }
    }
}

#[test]
fn wrong_answers_of_lent_records() {
    for fault in [
        "stored_on_refusal",
        "deadline_on_refusal",
        "emptied_on_refusal",
        "length_on_refusal",
        "swapped",
        "old_record",
        "past_listing",
    ] {
        finds("lent_records", "lent_records", fault);
    }
}

#[test]
fn wrong_answers_of_early_runs() {
    for fault in [
        "early_refused",
        "held_beyond_the_limit",
        "ten_before_twelve",
        "ended_while_held",
        "ended_a_tick_late",
        "chosen_while_held",
    ] {
        finds("lent_records", "lent_records", fault);
    }
}

#[test]
fn wrong_answers_of_rehearsals() {
    for fault in [
        "late_finish",
        "arrivals_after_looks",
        "falling_finishes",
        "jumped_held",
        "joined_spans",
    ] {
        finds("rehearse", "rehearsals", fault);
    }
}

#[test]
fn words_that_are_wrong() {
    let folder = folder("words");
    for words in [
        &[][..],
        &["--seed", "1"],
        &["--plan"],
        &["--plan", " "],
        &["--sheet", "x", "--table", "x"],
        &["plan", "x"],
        &["--other", "x"],
        &["--plan", "x", "--seed", "y"],
        &["--plan", "there-is-no-such-program"],
    ] {
        assert_eq!(run(&folder, words).status.code(), Some(2), "{words:?}");
    }
}

#[test]
fn what_is_not_asked_is_said() {
    let plan = format!("{} plan", stand_in().display());
    let words = ["--plan", &plan, "--seconds", "0"];
    let said = text(&run(&folder("not-asked"), &words));
    for kind in ["host", "calls", "lent_records", "sheets", "rehearsals"] {
        assert!(said.contains(&format!("{kind}: not asked")), "{said}");
    }
}
