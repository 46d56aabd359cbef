//! What the tables with names must meet, and sheets that are written and read.
#![forbid(unsafe_code)]

mod asked;

use asked::{all_met, asked, Asked};
use compare::random::Random;
use compare::sheets;
use std::collections::BTreeSet;

/// What is so in an input.
fn traits(it: &Asked) -> Vec<&'static str> {
    let lines = it.lines();
    let dividers = lines.iter().filter(|line| line.starts_with(b"names "));
    let dividers = dividers.count();
    let text = it.input.windows(7).position(|part| part == b"\nnames ");
    let text = text.map_or(0, |end| end + 1);
    let answer = String::from_utf8_lossy(&it.answer);
    let after = format!("refused 16 line {}\n", lines.len() + 1);
    let traits = [
        ("no divider", dividers == 0),
        ("one divider", dividers == 1),
        ("two dividers", dividers > 1),
        ("4095", text == 4_095),
        ("4096", text == 4_096),
        ("4097", text == 4_097),
        ("line 0", answer == "refused 16 line 0\n"),
        ("line after the last", answer == after),
        ("no last newline", it.input.last() != Some(&b'\n')),
        ("far too many names", it.input.len() > 1_000_000),
    ];
    let traits = traits.into_iter().filter(|(_, so)| *so);
    traits.map(|(name, _)| name).collect()
}

#[test]
fn tables_with_names() {
    let mut met = BTreeSet::new();
    for it in asked().iter().filter(|it| !it.reads_sheet()) {
        let no = it.refused();
        met.extend(traits(it).into_iter().map(|name| (name, no)));
    }
    all_met(
        &met,
        [("one divider", 0), ("no divider", 16), ("line 0", 16)],
    );
    all_met(
        &met,
        [
            ("two dividers", 16),
            ("two dividers", 17),
            ("two dividers", 19),
        ],
    );
    all_met(&met, [("4095", 2), ("4096", 2), ("4097", 16), ("4096", 17)]);
    all_met(
        &met,
        [("line after the last", 16), ("far too many names", 17)],
    );
    all_met(&met, [16, 17, 19].map(|no| ("no last newline", no)));
}

/// The second program reads what it writes as what was drawn.
#[test]
fn sheets_that_are_read_back() {
    let mut random = Random::new(12);
    let mut read = 0;
    for batch in (0..2_000).map(|_| sheets::batch(&mut random)) {
        let Some(reader) = batch.reader else {
            continue;
        };
        let input = batch.input();
        let sheet = second::office::office(&input);
        let right = [&sheet[..], &reader(&input, &sheet)].concat();
        assert!(right == batch.cases[0].answer);
        read += 1;
    }
    assert!(read > 100, "{read}");
}
