//! What the questions of lent records must meet, read off the bytes that lent_records.c is given and should answer.
#![forbid(unsafe_code)]

mod common;

use common::{number, number_at};
use compare::batch::{Batch, Case};
use compare::lent_records::{self, layout::RECORD};
use compare::random::Random;
use std::collections::{BTreeMap, BTreeSet};

/// A frame without its table.
const FRAME: usize = 52;
/// Where an answer has the record, after the refusal and the bytes in front.
const ANSWERED: usize = 68;

/// The calls by their numbers in a frame.
const CALLS: [&str; 5] = ["list", "release", "finish", "look", "start"];

/// What a call may answer, by the header.
const ANSWERS: [&[u64]; 5] = [
    &[0, 14, 15],
    &[0, 7, 8, 10, 12, 15],
    &[0, 7, 8, 11, 12, 15],
    &[0, 8, 12, 13, 15],
    &[0, 1, 2, 3, 4, 5, 6],
];

fn call(case: &Case) -> usize {
    number(&case.input, 0, 4) as usize
}

fn kept(case: &Case) -> bool {
    number(&case.input, 4, 4) == 1
}

/// Place, width and value of the spoilt bytes.
fn spoilt(case: &Case) -> (usize, usize, u64) {
    let [place, width] = [8, 12].map(|at| number(&case.input, at, 4) as usize);
    (place, width, number(&case.input, 28, 8))
}

fn length(case: &Case) -> usize {
    number(&case.input, 16, 4) as usize
}

fn refused(case: &Case) -> u64 {
    number(&case.answer, 0, 4)
}

/// The first number that a call answers in, with the 16 bytes before it.
fn first(case: &Case) -> &[u8] {
    let end = case.answer.len() - 8 - 64;
    &case.answer[end - 24..end]
}

fn after(case: &Case) -> &[u8] {
    &case.answer[ANSWERED..ANSWERED + RECORD]
}

/// Many batches, one at a time, since each answer has all bytes of a record.
fn batches() -> impl Iterator<Item = Batch> {
    let mut random = Random::new(8);
    (0..200).map(move |_| lent_records::batch(&mut random))
}

fn cases() -> impl Iterator<Item = Case> {
    batches().flat_map(|batch| batch.cases)
}

/// Numbers beside a limit and at the edges of the widths, each of which must be asked for.
const EDGES: [(&str, u64); 20] = [
    ("had", 2),
    ("had", 65_535),
    ("core", 17),
    ("core", 255),
    ("unfinished", 9),
    ("unfinished", 65_535),
    ("place", 4_294_967_295),
    ("share", 4_294_967_295),
    ("turns", 4_294_967_295),
    ("weight", 4_294_967_295),
    ("cost", 4_294_967_295),
    ("period", 4_294_967_295),
    ("cores", 17),
    ("common", 1_000_001),
    ("count", 65),
    ("count", 4_294_967_297),
    ("clock", 1_000_000_000_001),
    ("last", 1_000_000_000_001),
    ("clock", u64::MAX),
    ("deadline", u64::MAX),
];

#[test]
fn spoilt_numbers() {
    let mut asked = BTreeSet::new();
    let mut met: BTreeMap<&str, [u64; 2]> = BTreeMap::new();
    for case in cases() {
        let (place, width, value) = spoilt(&case);
        let (name, own, within) = number_at(place);
        if (width, within) != (own, 0) || call(&case) == 4 {
            continue;
        }
        let unsound = refused(&case) == 15;
        // A flag that is neither 0 nor 1 is unsound.
        assert!(name != "had" || value < 2 || unsound, "a flag of {value}");
        asked.insert((name, value));
        met.entry(name).or_default()[usize::from(unsound)] += 1;
    }
    for edge in EDGES {
        assert!(asked.contains(&edge), "{edge:?} is never asked for");
    }
    assert_eq!(met.len(), 15, "{met:?}");
    for (name, [sound, unsound]) in met {
        assert!(sound > 0 && unsound > 0, "{name}: {sound} {unsound}");
    }
}

#[test]
fn spoilt_bytes() {
    let mut bytes = BTreeSet::new();
    let mut places = BTreeSet::new();
    for case in cases() {
        let (place, width, _) = spoilt(&case);
        if width == 1 {
            let (name, _, within) = number_at(place);
            bytes.insert((name, within));
            places.insert(place);
        }
    }
    // Each byte of each kind of number, and bytes everywhere.
    assert_eq!(
        bytes.len(),
        4 + 4 + 8 + 4 * 4 + 8 + 8 + 8 + 4 + 4 + 1 + 2 + 2
    );
    assert!(places.len() > 4_000, "{}", places.len());
}

#[test]
fn every_call_meets_its_refusals() {
    let mut met = [(); 5].map(|()| BTreeMap::new());
    for case in cases() {
        *met[call(&case)].entry(refused(&case)).or_insert(0) += 1;
    }
    for (call, met) in met.iter().enumerate() {
        let answers: Vec<u64> = met.keys().copied().collect();
        assert_eq!(answers, ANSWERS[call], "{}: {met:?}", CALLS[call]);
    }
}

/// A refusal changes nothing, and what is kept is lent to the next.
#[test]
fn records_that_are_lent() {
    let mut in_turn = 0;
    for batch in batches() {
        assert_eq!(batch.head.len(), RECORD);
        let mut record = batch.head;
        for case in &batch.cases {
            let (place, width, value) = spoilt(case);
            let mut lent = record.clone();
            lent[place..place + width].copy_from_slice(&value.to_le_bytes()[..width]);
            let moved = call(case) > 0 && refused(case) == 0;
            assert!(moved || after(case) == lent, "a refusal changes the record");
            assert!(batch.in_turn || !kept(case));
            in_turn += u64::from(moved && kept(case) && after(case) != lent);
            if kept(case) {
                record = after(case).to_vec();
            }
        }
    }
    assert!(in_turn > 5_000, "{in_turn}");
}

/// What is not answered in keeps its pattern.
#[test]
fn numbers_that_are_answered() {
    for case in cases() {
        let table = if call(&case) == 4 { length(&case) } else { 0 };
        assert_eq!(case.input.len(), FRAME + table);
        assert_eq!(
            case.answer.len(),
            4 + 4 * 64 + RECORD + length(&case) + 24 + 8
        );
        let pattern = case.input[20].wrapping_add(64);
        let filled: Vec<u8> = (0..24).map(|byte| pattern.wrapping_add(byte)).collect();
        let second = &case.answer[case.answer.len() - 8..];
        let same = match (refused(&case), call(&case)) {
            (0, 3) => 0,
            (0, 0..=2) => 16,
            _ => 24,
        };
        assert_eq!(first(&case)[..same], filled[..same]);
        assert!((refused(&case), call(&case)) == (0, 1) || *second == filled[..8]);
    }
}

#[test]
fn choices_and_listings() {
    let mut kinds = BTreeSet::new();
    let mut rooms = BTreeSet::new();
    for case in cases() {
        match (call(&case), refused(&case)) {
            (3, 0) => drop(kinds.insert(number(first(&case), 0, 8))),
            (0, 0) => drop(rooms.insert(length(&case) as u64 - number(first(&case), 16, 8))),
            _ => {}
        }
    }
    assert_eq!(kinds.into_iter().collect::<Vec<_>>(), [0, 1, 2, 3]);
    assert!(
        [0, 1, 2].iter().all(|room| rooms.contains(room)),
        "{rooms:?}"
    );
}
