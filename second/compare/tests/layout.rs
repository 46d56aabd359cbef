//! A record's bytes are those of the header's struct.
#![forbid(unsafe_code)]

mod common;

use common::{number, number_at};
use compare::lent_records::{field, layout};
use second::record::Record;

/// The bytes of a record, by the header.
const RECORD: usize = 14_616;

#[test]
fn places_of_numbers() {
    let table = [5, 6, 4, 6, 2, 3, 2, 3, 2, 3, 1, 2];
    let mut record = Record::fresh(4, &table).expect("the table is taken");
    record.release(6, 258).expect("it is taken");
    record.release(6, 260).expect("it is taken");
    let bytes = layout::bytes(&record);
    let at = |place, width| number(&bytes, place, width);
    assert_eq!(bytes.len(), RECORD);
    assert_eq!([at(0, 4), at(4, 4), at(8, 8), at(4_880, 8)], [4, 6, 6, 260]);
    let line = 16 + 5 * 76;
    assert_eq!(
        [line, line + 4, line + 8].map(|place| at(place, 4)),
        [1, 2, 3]
    );
    assert_eq!([line + 20, line + 24].map(|place| at(place, 4)), [1, 2]);
    let state = 4_888 + 5 * 152;
    assert_eq!(
        [0, 8, 16].map(|place| at(state + place, 8)),
        [260, 260, 262]
    );
    assert_eq!([80, 84, 136].map(|place| at(state + place, 4)), [1, 1, 2]);
    assert_eq!([140, 141].map(|place| at(state + place, 1)), [4, 3]);
    assert_eq!([148, 150].map(|place| at(state + place, 2)), [2, 1]);
    assert!(layout::record(&bytes) == record);
}

/// The fields name every byte of a record once, and as the header does.
#[test]
fn fields_of_a_record() {
    let mut named = [0; RECORD];
    let tasks = (0..64).flat_map(field::of_task);
    for field in field::BOX.into_iter().chain(tasks) {
        for index in 0..field.length {
            let place = field.place_of(index);
            let (_, width, within) = number_at(place);
            assert_eq!((width, within), (field.width, 0), "{field:?}");
            named[place..place + width]
                .iter_mut()
                .for_each(|byte| *byte += 1);
        }
    }
    assert!(named.iter().all(|&byte| byte == 1));
}
