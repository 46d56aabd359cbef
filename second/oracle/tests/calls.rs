//! The calls answer what document 01 says of its list, in the bytes that are lent.
#![forbid(unsafe_code)]

use oracle::calls;

/// The bytes of a record, by the header.
const RECORD: usize = 14_616;
/// A byte of the clock, by the header.
const CLOCK: usize = 4_880;

/// Document 01's list.
fn table() -> Vec<u8> {
    let numbers: [u32; 12] = [5, 6, 4, 6, 2, 3, 2, 3, 2, 3, 1, 2];
    numbers.iter().flat_map(|n| n.to_le_bytes()).collect()
}

/// Any bytes, and document 01's list planned there.
fn started() -> Vec<u8> {
    let mut held = vec![0xA5; RECORD];
    assert_eq!(calls::start(&mut held, 4, &table()), Ok(()));
    held
}

#[test]
fn taken_calls_move_the_record_on() {
    let mut held = started();
    assert_eq!(calls::release(&mut held, 5, 7), Ok((2, 10)));
    assert_eq!(held[CLOCK], 7);
    assert_eq!(calls::look(&mut held, 2, 8), Ok([3, 5, 10]));
    assert_eq!(calls::look(&mut held, 4, 8), Ok([0, 0, 0]));
    assert_eq!(calls::finish(&mut held, 5, 9), Ok(-1));
    assert_eq!(held[CLOCK], 9);
}

#[test]
fn refused_calls_change_no_byte() {
    let mut held = started();
    assert_eq!(calls::release(&mut held, 5, 7), Ok((2, 10)));
    let before = held.clone();
    assert_eq!(calls::release(&mut held, 5, 6), Err(8));
    assert_eq!(calls::finish(&mut held, 1, 9), Err(11));
    assert_eq!(calls::look(&mut held, 5, 9), Err(13));
    assert_eq!(calls::start(&mut held, 3, &table()), Err(6));
    assert_eq!(calls::list(&held, &mut [0; 9]), Err(14));
    assert!(held == before);
}

#[test]
fn early_runs_are_held() {
    let mut held = started();
    assert_eq!(calls::release(&mut held, 5, 7), Ok((2, 10)));
    assert_eq!(calls::release(&mut held, 5, 9), Ok((1, 13)));
    assert_eq!(held[CLOCK], 9);
    assert_eq!(calls::finish(&mut held, 5, 9), Ok(-1));
    assert_eq!(calls::look(&mut held, 1, 9), Ok([0, 0, 0]));
    let before = held.clone();
    assert_eq!(calls::finish(&mut held, 5, 9), Err(11));
    assert!(held == before);
    assert_eq!(calls::look(&mut held, 1, 10), Ok([2, 5, 13]));
    assert_eq!(calls::finish(&mut held, 5, 10), Ok(-3));
}

#[test]
fn other_bytes_are_unsound() {
    let mut held = started();
    held[RECORD - 1] = 1;
    assert_eq!(calls::look(&mut held, 1, 0), Err(15));
    assert_eq!(calls::list(&held, &mut [0; 9]), Err(15));
}

#[test]
fn a_record_lists_as_its_table() {
    let (mut one, mut other) = ([0xA5; 1_000], [0xA5; 1_000]);
    let length = calls::list(&started(), &mut one).expect("it is listed");
    assert_eq!(calls::listing(4, &table(), &mut other), length as i64);
    assert!(one == other && one.starts_with(b"cores 4 common 6\n"));
    assert!(one[length - 1] == b'\n' && one[length] == 0xA5);
    assert_eq!(calls::admit(4, &table()), 0);
}
