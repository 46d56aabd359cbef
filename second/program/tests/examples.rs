//! The table of examples E1 to E12.
#![forbid(unsafe_code)]

use second::host::{admit_bytes, listing_bytes, start_bytes};
use second::limits::CORES;
use second::listing::{list_into, listing};
use second::plan::{admit, late, plan};
use second::program::program;
use second::record::Record;
use second::refusal::Refusal;
use second::task::Task;
use second::turn;

const LIST: [u32; 12] = [5, 6, 4, 6, 2, 3, 2, 3, 2, 3, 1, 2];
const LISTING: &str = "cores 4 common 6
task 1 cost 5 period 6 weight 5 fixed 1:5 late 6
task 2 cost 4 period 6 weight 4 fixed 2:4 late 9
task 3 cost 2 period 3 weight 4 fixed 3:4 late 13
task 4 cost 2 period 3 weight 4 fixed 4:4 late 8
task 5 cost 2 period 3 weight 4 moves 1:1 2:2 3:1 late -1
task 6 cost 1 period 2 weight 3 moves 3:1 4:2 late 5
";

/// A table as the host hands it.
fn bytes(table: &[u32]) -> Vec<u8> {
    table.iter().flat_map(|n| n.to_le_bytes()).collect()
}

/// The positive shares of a task as (core, share).
fn shares(task: &Task) -> Vec<(usize, u64)> {
    let numbered = task.shares.iter().copied().enumerate();
    numbered
        .filter(|&(_, share)| share > 0)
        .map(|(core, share)| (core + 1, share))
        .collect()
}

/// A refused table is refused alike in every form.
fn refused(cores: u32, table: &[u32], no: u32, task: usize) {
    let refusal = Refusal { no, task };
    assert_eq!(admit(cores, table), Err(refusal));
    assert_eq!(plan(cores, table), Err(refusal));
    assert_eq!(Record::fresh(cores, table), Err(refusal));
    assert_eq!(admit_bytes(cores, &bytes(table)), no);
    let mut buffer = [7; 100];
    let answer = listing_bytes(cores, &bytes(table), &mut buffer);
    assert_eq!(answer, -i64::from(no));
    assert_eq!(buffer, [7; 100]);
    let mut record = Record::fresh(4, &LIST).unwrap();
    assert_eq!(start_bytes(&mut record, cores, &bytes(table)), Err(no));
    assert_eq!(record, Record::fresh(4, &LIST).unwrap());
}

/// The cores of so many turns.
fn turns(given: &[(usize, u64)], number: u64) -> Vec<usize> {
    let mut task = Task::default();
    for &(core, share) in given {
        task.shares[core - 1] = share;
        task.weight += share;
    }
    let (mut counts, mut place) = ([0; CORES], 0);
    let turns = (0..number).map(|_| turn::step(&task, &mut counts, &mut place) + 1);
    turns.collect()
}

#[test]
fn e1_to_e4() {
    let text = b"4\n5 6\n4 6\n2 3\n2 3\n2 3\n1 2\n";
    assert_eq!(program(text), LISTING.as_bytes());
    refused(3, &LIST, 6, 0);
    let plan = plan(1, &[1, 1]).unwrap();
    assert_eq!(shares(&plan.tasks[0]), [(1, 1)]);
    assert_eq!(late(&plan), [0]);
    refused(1, &[1, 1, 1, 1_000_000], 6, 0);
}

#[test]
fn e5_and_e6() {
    let three = plan(2, &[2, 3, 2, 3, 2, 3]).unwrap();
    assert_eq!(shares(&three.tasks[2]), [(1, 1), (2, 1)]);
    assert_eq!(late(&three), [9, 9, -1]);
    let five = plan(2, &[7, 10, 7, 10, 2, 5, 1, 10, 1, 10]).unwrap();
    assert_eq!(shares(&five.tasks[2]), [(1, 3), (2, 1)]);
    assert_eq!(shares(&five.tasks[3]), [(2, 1)]);
    assert_eq!(shares(&five.tasks[4]), [(2, 1)]);
    assert_eq!(late(&five), [9, 6, -3, 6, 6]);
}

#[test]
fn e7_and_e8() {
    assert_eq!(turns(&[(1, 1), (2, 2), (3, 1)], 4), [2, 1, 2, 3]);
    let twice = [2, 1, 2, 3, 2, 1, 2, 3];
    assert_eq!(turns(&[(1, 1), (2, 2), (3, 1)], 8), twice);
    assert_eq!(turns(&[(3, 1), (4, 2)], 3), [4, 3, 4]);
}

#[test]
fn e9_to_e12() {
    refused(1, &[1, 1000, 1, 1001], 5, 2);
    assert_eq!(plan(1, &[1, 999, 1, 1001]).unwrap().common, 999_999);
    assert_eq!(admit(1, &[1, 999, 1, 1001]), Ok(()));
    refused(1, &[6, 5, 0, 1], 4, 1);
    refused(0, &[], 1, 0);
}

#[test]
fn table_sizes() {
    refused(17, &LIST, 1, 0);
    refused(1, &[], 2, 0);
    refused(1, &[0; 130], 2, 0);
    assert_eq!(plan(1, &[1]), Err(Refusal::plain(2)));
    assert_eq!(admit_bytes(1, &[1; 9]), 2);
    assert_eq!(admit_bytes(0, &[1; 9]), 1);
    refused(1, &[1, 1, 0, 1], 3, 2);
    refused(1, &[1, 1_000_001], 3, 1);
    assert_eq!(admit(16, &[1; 128]), Err(Refusal::plain(6)));
    assert_eq!(admit_bytes(16, &bytes(&[1, 64].repeat(64))), 0);
}

#[test]
fn fresh_in_place() {
    let mut record = Record::fresh(1, &[1, 1]).unwrap();
    record.release(1, 5).unwrap();
    assert_eq!(start_bytes(&mut record, 4, &bytes(&LIST)), Ok(()));
    assert_eq!(record, Record::fresh(4, &LIST).unwrap());
    assert_eq!(start_bytes(&mut record, 1, &[1; 9]), Err(2));
    assert_eq!(record, Record::fresh(4, &LIST).unwrap());
}

#[test]
fn listings_in_buffers() {
    let record = Record::fresh(4, &LIST).unwrap();
    assert_eq!(listing(&record).unwrap(), LISTING.as_bytes());
    let length = LISTING.len();
    let mut buffer = vec![7; length + 2];
    assert_eq!(list_into(&record, &mut buffer), Ok(length));
    assert_eq!(&buffer[..length], LISTING.as_bytes());
    assert_eq!(&buffer[length..], [7, 7]);
    let answer = listing_bytes(4, &bytes(&LIST), &mut buffer[..length]);
    assert_eq!(answer, length as i64);
    let mut short = vec![7; length - 1];
    assert_eq!(list_into(&record, &mut short), Err(14));
    assert_eq!(listing_bytes(4, &bytes(&LIST), &mut short), -14);
    assert_eq!(list_into(&Record::empty(), &mut short), Err(15));
    assert_eq!(short, vec![7; length - 1]);
}
