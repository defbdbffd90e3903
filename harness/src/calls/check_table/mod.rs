//! `govlezna_check_table`.

mod inputs;
mod rows;

use crate::answer::{success, Answer};
use crate::arguments::Arguments;
use crate::call::Parameter::Table;
use crate::call::{Call, Faults};
use crate::documented::{table, Documented, Outcome::Answered};
use crate::faults::parts::table as table_of;
use crate::faults::{external, marked};
use crate::inputs::tables;
use crate::lent::{Lent, Run};
use crate::oracle::checks::defined_by;
use crate::table::DECLARE_EXTERNAL;

extern "C" {
    fn govlezna_check_table(
        list: *const u8,
        list_length: usize,
        pool: *const u8,
        pool_length: usize,
        answer: *mut u64,
    ) -> u32;
}

unsafe fn run(lent: &Lent) -> u32 {
    govlezna_check_table(
        lent.list,
        lent.list_length,
        lent.pool,
        lent.pool_length,
        lent.answer,
    )
}

pub const CALL: Call = Call {
    name: "check_table",
    parameters: &[Table],
    run,
    expected: answer,
    reading: None,
    misreadings: &[],
    documented: &[DOCUMENTED],
    seams: inputs::seams,
    families: &[&[
        tables::limits,
        inputs::long,
        inputs::every_small_list,
        inputs::every_part,
        inputs::every_edge,
        inputs::damaged,
    ]],
    random: inputs::random,
    stored: "check_table LIST POOL = NUMBER FIRST SECOND",
    faults: &[external::TABLE, marked::TABLE, marked::COUNT, COUNT],
    // SAFETY: everything that is lent is of the length stated.
    timed: || rows::timed(|lent| unsafe { run(lent) }),
    differences: || vec![],
    counted: |_| {},
};

fn answer(arguments: &Arguments) -> Answer {
    match defined_by(arguments.table) {
        Ok(definitions) => success(definitions.len() as u64),
        Err(refusal) => refusal,
    }
}

/// K4's cases; pools are `a`, a name.
const DOCUMENTED: &[Documented] = &[
    table(&[0], b"", Answered(0, 0, 0)),
    table(&[3, 0], b"", Answered(0, 0, 0)),
    table(&[3], b"", Answered(7, 1, 0)),
    table(&[3, 3, 0], b"", Answered(7, 1, 0)),
    table(&[3, 0, 0], b"", Answered(7, 2, 0)),
    table(&[0, 3], b"", Answered(7, 1, 0)),
    table(&[3, 4, 0], b"", Answered(7, 1, 0)),
    table(
        &[3, 1, 0, 0, 0, 0, 1, 0, 0, 0, 0, 0, 0, 0],
        b"a",
        Answered(0, 1, 0),
    ),
    table(&[3, 2, 0, 0, 0, 0, 1, 0], b"a", Answered(0, 1, 0)),
    table(
        &[1, 0, 0, 0, 0, 1, 0, 0, 0, 0, 0, 0, 3, 0],
        b"a",
        Answered(7, 12, 0),
    ),
    table(&[2, 0, 0, 0, 0, 1, 3, 0], b"a", Answered(7, 6, 0)),
    table(
        &[3, 1, 0, 0, 0, 0, 1, 0, 0, 0, 0, 0, 0],
        b"a",
        Answered(7, 13, 0),
    ),
    table(
        &[3, 1, 0, 0, 0, 0, 1, 0, 0, 0, 0, 0],
        b"a",
        Answered(7, 1, 0),
    ),
    table(
        &[3, 1, 0, 0, 0, 0, 2, 0, 0, 0, 0, 0, 0, 0],
        b"a",
        Answered(8, 1, 0),
    ),
    table(
        &[3, 1, 0, 0, 0, 0, 0, 0, 0, 0, 0, 0, 0, 0],
        b"a",
        Answered(9, 1, 0),
    ),
    table(
        &[3, 2, 0, 0, 0, 0, 1, 2, 1, 0, 0, 0, 1, 0],
        b"a",
        Answered(8, 7, 0),
    ),
];

const COUNT: Faults = &[("external entities not counted", uncounted)];

unsafe fn uncounted(lent: &Lent, real: Run) -> u32 {
    let number = real(lent);
    let commands = table_of(lent).commands().unwrap_or_default();
    let external = commands
        .iter()
        .filter(|command| command[0] == DECLARE_EXTERNAL);
    if number == 0 {
        *lent.answer -= external.count() as u64;
    }
    number
}
