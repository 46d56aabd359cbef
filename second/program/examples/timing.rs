//! Rough times of each operation on a full box of 64 tasks on 16 cores.
#![forbid(unsafe_code)]

use second::listing::listing;
use second::plan::{admit, plan};
use second::record::Record;
use std::hint::black_box;
use std::time::{Duration, Instant};

const CORES: u32 = 16;
const TASKS: u64 = 64;
const ROUNDS: u32 = 5_000;

/// Twenty tasks of 3/5 and forty-four of 1/11, which fill sixteen cores.
fn full_table() -> Vec<u32> {
    let mut table = [54_000, 90_000].repeat(20);
    table.extend([9_000, 99_000].repeat(44));
    table
}

/// Prints the time of one operation out of so many.
fn print(name: &str, spent: Duration, number: u32) {
    println!("{name:10} {:8} ns", spent.as_nanos() / u128::from(number));
}

/// Times a piece of work that is done alike each time.
fn time<T>(name: &str, mut work: impl FnMut() -> T) {
    let start = Instant::now();
    for _ in 0..ROUNDS {
        black_box(work());
    }
    print(name, start.elapsed(), ROUNDS);
}

/// Makes accepted calls, with every task in use, and times each kind.
fn time_calls(mut record: Record) {
    let mut spent = [Duration::ZERO; 3];
    for round in 0..u64::from(ROUNDS) / 10 {
        let now = round * 99_000;
        let start = Instant::now();
        for task in 1..=TASKS {
            black_box(record.release(task, now)).expect("a release is due");
        }
        let released = Instant::now();
        for core in 1..=TASKS {
            let core = 1 + core % u64::from(CORES);
            black_box(record.look(core, now)).expect("the core is there");
        }
        let looked = Instant::now();
        for task in 1..=TASKS {
            black_box(record.finish(task, now + 1)).expect("a run is there");
        }
        spent[0] += released - start;
        spent[1] += looked - released;
        spent[2] += looked.elapsed();
    }
    let number = ROUNDS / 10 * TASKS as u32;
    for (name, spent) in ["release", "look", "finish"].into_iter().zip(spent) {
        print(name, spent, number);
    }
}

fn main() {
    let table = full_table();
    let made = plan(CORES, &table).expect("the table fits");
    let movers = made.tasks.iter().filter(|task| task.moves()).count();
    println!("{} tasks, {movers} of them move", made.tasks.len());
    let record = Record::of(&made);
    time("planning", || plan(CORES, black_box(&table)));
    time("fresh", || Record::fresh(CORES, black_box(&table)));
    time("admission", || admit(CORES, black_box(&table)));
    time("listing", || listing(black_box(&record)));
    time("soundness", || black_box(&record).sound());
    time_calls(record);
}
