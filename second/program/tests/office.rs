//! What the program `office` makes of tables with names, and what is read of the sheets that it writes.
#![forbid(unsafe_code)]

mod common;

use common::{table, Random};
use second::office::office;
use second::sheet::read_sheet;
use second::sheets;
use second::text::write_text;
use std::collections::BTreeSet;

/// Compares an answer.
fn answers(input: &str, answer: &str) {
    let given = String::from_utf8(office(input.as_bytes())).unwrap();
    assert_eq!(given, answer, "{input:?}");
}

/// Compares a refusal.
fn refused(input: &str, answer: &str) {
    answers(input, &format!("refused {answer}\n"));
}

#[test]
fn sheets_that_are_written() {
    answers(
        "2\n5 6\n1 3\nnames 1000\ncam\nb\n",
        "1000\ncam,5000,6000\nb,1000,3000\n",
    );
    answers(
        "1\n1000000 1000000\nnames 1000000\nabcdefghijkl\n",
        "1000000\nabcdefghijkl,1000000000000,1000000000000\n",
    );
}

#[test]
fn tables_that_cannot_be_read() {
    refused("", "16 line 0");
    refused("names 1\na\n", "16 line 0");
    refused("1\n", "16 line 2");
    refused("1\n1 1\n", "16 line 3");
    refused("1\n1 1", "16 line 2");
    refused("1\n1 1\nnames\na\n", "16 line 3");
    refused("1\n1 1\n names 1\na\n", "16 line 3");
    refused("1\n1 1\nNames 1\na\n", "16 line 3");
    refused("1\n01 1\nnames 0\na\n", "16 line 2");
    refused("x\n1 1\nnames 1\na\n", "16 line 1");
    refused(&format!("1\n{}", "1 1\n".repeat(1_024)), "16 line 0");
    let longest = "10\n".to_string() + &"1 1\n".repeat(1_022) + "1 10\n";
    assert_eq!(longest.len(), 4_096);
    refused(&longest, "16 line 1025");
    refused(&format!("{longest}names 1\n"), "17");
    refused(&format!("1{longest}names 1\n"), "16 line 0");
}

#[test]
fn tick_lengths() {
    for bad in [
        "",
        "\n",
        "1",
        "0\n",
        "1000001\n",
        "01\n",
        " 1\n",
        "1 \n",
        "1\r\n",
    ] {
        refused(&format!("0\n9 1\nnames {bad}"), "19");
    }
    for bad in ["+1", "x", "1,", "1000000000000000", "names 1"] {
        refused(&format!("1\n1 1\nnames {bad}\na\n"), "19");
    }
    // The first such line decides.
    refused("1\n1 1\nnames 0\nnames 1\na\n", "19");
    refused("1\n1 1\nnames 1\nnames 1\na\n", "17");
    refused("1\nnames 1\n1 1\nnames 1\na\n", "17");
}

#[test]
fn names() {
    for bad in [
        "",
        "A",
        "a1",
        "a ",
        " a",
        "a\r",
        "\"a\"",
        "a,",
        "a;",
        "\u{feff}a",
    ] {
        refused(&format!("0\n9 1\nnames 1\n{bad}\n"), "17");
    }
    refused("1\n1 1\nnames 1\nabcdefghijklm\n", "17");
    refused("1\n1 1\nnames 1\na", "17");
    refused("1\n1 1\nnames 1\n", "17");
    refused("1\n1 1\nnames 1\na\nb\n", "17");
    refused("1\n1 1\nnames 1\na\na\n", "17");
    refused("1\n1 1\nnames 1\na\n\n", "17");
    refused("0\n9 1\n9 1\n9 1\nnames 1\na\nb\na\n", "18");
    refused(&format!("1\n1 1\nnames 1\n{}", "a\n".repeat(600_000)), "17");
}

#[test]
fn tables_that_are_refused() {
    refused("0\nnames 1\n", "1");
    refused("1\nnames 1\n", "2");
    refused("1\n1 1\n0 1\nnames 1\na\nb\n", "3 task 2");
    refused("1\n2 1\n0 1\nnames 1\na\nb\n", "4 task 1");
    refused("1\n1 1000\n1 1001\nnames 1\na\nb\n", "5 task 2");
    refused("1\n1 1\n1 1\nnames 1\na\nb\n", "6");
    let letters = ('a'..='z').map(|letter| format!("{letter}\n{letter}x\n{letter}y\n"));
    let names: String = letters.collect();
    let tasks = "1 100\n".repeat(78);
    refused(&format!("1\n{tasks}names 1\n{names}"), "2");
    refused(&format!("1\n{tasks}1 1\nnames 1\n{names}zx\n"), "18");
}

/// So many names of 1 to 12 letters, each another.
fn drawn_names(random: &mut Random, number: usize) -> Vec<String> {
    let mut names = BTreeSet::new();
    while names.len() < number {
        let letters = 1 + random.below(12);
        let letter = |_| char::from(b'a' + random.below(26) as u8);
        names.insert((0..letters).map(letter).collect());
    }
    names.into_iter().rev().collect()
}

#[test]
fn written_and_read() {
    let mut random = Random(3);
    for round in 0..2_000 {
        let (cores, table) = table(&mut random, 1_000);
        let names = drawn_names(&mut random, table.len() / 2);
        let tick = *random.pick(&[1, 2, 999, 1_000, 65_536, 999_999, 1_000_000]);
        let text = write_text(cores, &table);
        let divider = format!("names {tick}\n{}\n", names.join("\n"));
        let sheet = office(&[&text, divider.as_bytes()].concat());
        let read = read_sheet(&sheet).unwrap();
        assert_eq!((read.tick, &read.table), (tick, &table), "{round}");
        let given: Vec<&[u8]> = names.iter().map(|name| name.as_bytes()).collect();
        assert_eq!(read.names, given, "{round}");
        let input = [format!("{cores}\n").as_bytes(), &sheet].concat();
        assert_eq!(sheets::table(&input), text, "{round}");
    }
}
