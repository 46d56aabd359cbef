//! Random cases from a seed, asked of the product and of the second program, every byte compared.
#![forbid(unsafe_code)]

pub mod batch;
pub mod calls;
pub mod command;
pub mod host;
pub mod kinds;
pub mod lent_records;
pub mod options;
pub mod pattern;
pub mod random;
pub mod rehearsals;
pub mod report;
pub mod run;
pub mod save;
pub mod sheets;
pub mod tables;
pub mod tally;
pub mod texts;
