//! Sheets that one program writes and the other reads: the same table, names and tick length must come back.

use super::request::Request;
use super::{answered, OFFICE, SHEET};
use crate::batch::Batch;
use crate::random::Random;
use crate::tables::{self, table::Table};
use second::{listing, office, plan, sheets, text};

/// The product writes, and the second program reads what it wrote.
pub fn by_product(random: &mut Random) -> Batch {
    let (table, request) = taken(random);
    let input = request.input();
    let answer = [office::office(&input), said(&table, &request)].concat();
    Batch {
        reader: Some(read),
        ..answered(OFFICE, input, answer)
    }
}

/// The second program writes, and the product reads.
pub fn by_second(random: &mut Random) -> Batch {
    let (table, request) = taken(random);
    let input = with_cores(&request.text, &office::office(&request.input()));
    answered(SHEET, input, said(&table, &request))
}

/// A table that is taken, with names and a tick length.
fn taken(random: &mut Random) -> (Table, Request) {
    let table = tables::taken(random);
    let request = Request::of_table(random, &table);
    (table, request)
}

/// What is to be read: the plan of the table that was drawn, its tick length and its names.
fn said(table: &Table, request: &Request) -> Vec<u8> {
    let plan = plan::plan(table.cores, &table.numbers).expect("the table is taken");
    let mut lines = request.line.replacen("names", "tick", 1);
    for (index, name) in request.names.iter().enumerate() {
        lines += &format!("name {} {name}\n", index + 1);
    }
    [listing::of_plan(&plan), lines.into_bytes()].concat()
}

/// The second program's reading of a sheet that was written for an input.
fn read(input: &[u8], sheet: &[u8]) -> Vec<u8> {
    sheets::sheet(&with_cores(input, sheet))
}

/// A sheet behind the first line of a table's text.
fn with_cores(table: &[u8], sheet: &[u8]) -> Vec<u8> {
    let (cores, _) = text::split_line(table).expect("the text has a line");
    [cores, b"\n", sheet].concat()
}
