//! The six kinds of cases.

use crate::batch::Batch;
use crate::random::Random;
use crate::{calls, host, lent_records, rehearsals, sheets, texts};

pub struct Kind {
    pub name: &'static str,
    /// The product's programs that it asks; each has an option of its name.
    pub programs: &'static [&'static str],
    /// What one case is, in the report's words.
    pub cases: &'static str,
    /// Makes one batch, asked of one process.
    pub batch: fn(&mut Random) -> Batch,
    /// The refusals that this kind can meet; one that it meets besides is a fault. No kind meets 9.
    pub refusals: &'static [usize],
    /// Whether a long run must meet each of them here; a kind with one case a process asks too little for that, unless each is drawn often.
    pub meets_all: bool,
}

pub const KINDS: [Kind; 6] = [
    Kind {
        name: "plan",
        programs: &["plan"],
        cases: "texts",
        batch: texts::batch,
        refusals: &[1, 2, 3, 4, 5, 6, 16],
        meets_all: false,
    },
    Kind {
        name: "host",
        programs: &["host"],
        cases: "tables with a buffer",
        batch: host::batch,
        refusals: &[1, 2, 3, 4, 5, 6, 14],
        meets_all: true,
    },
    Kind {
        name: "calls",
        programs: &["calls"],
        cases: "inputs of calls",
        batch: calls::batch,
        refusals: &[1, 2, 3, 4, 5, 6, 7, 8, 10, 11, 12, 13, 16],
        meets_all: false,
    },
    Kind {
        name: "lent_records",
        programs: &["lent_records"],
        cases: "questions of records",
        batch: lent_records::batch,
        refusals: &[1, 2, 3, 4, 5, 6, 7, 8, 10, 11, 12, 13, 14, 15],
        meets_all: true,
    },
    Kind {
        name: "sheets",
        programs: &sheets::PROGRAMS,
        cases: "sheets and tables with names",
        batch: sheets::batch,
        refusals: &[1, 2, 3, 4, 5, 6, 16, 17, 18, 19],
        meets_all: false,
    },
    Kind {
        name: "rehearsals",
        programs: &["rehearse"],
        cases: "days",
        batch: rehearsals::batch,
        refusals: &[1, 2, 3, 4, 5, 6, 10, 12, 16, 25, 26, 27],
        meets_all: true,
    },
];
