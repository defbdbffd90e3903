//! `govlezna_normalize_nmtokens` (K5).

mod answer;
mod documented;
mod faults;
mod inputs;
mod rows;

use crate::call::Call;
use crate::call::Parameter::{Choice, Depth, Limit, Output, Scratch, Table, Text};
use crate::faults::{external, marked, memory::MEMORY, table::LOOKUP, walk};
use crate::inputs::{attribute, entities, woven};
use crate::lent::Lent;
use inputs::Tokens;

extern "C" {
    fn govlezna_normalize_nmtokens(
        text: *const u8,
        text_length: usize,
        version: u8,
        depth: u64,
        limit: u64,
        list: *const u8,
        list_length: usize,
        pool: *const u8,
        pool_length: usize,
        scratch: *mut u8,
        scratch_length: usize,
        out: *mut u8,
        out_length: usize,
        answer: *mut u64,
    ) -> u32;
}

unsafe fn run(lent: &Lent) -> u32 {
    govlezna_normalize_nmtokens(
        lent.text,
        lent.text_length,
        lent.choice,
        lent.depth,
        lent.limit,
        lent.list,
        lent.list_length,
        lent.pool,
        lent.pool_length,
        lent.scratch,
        lent.scratch_length,
        lent.out,
        lent.out_length,
        lent.answer,
    )
}

pub const CALL: Call = Call {
    name: "normalize_nmtokens",
    parameters: &[Text, Choice, Depth, Limit, Table, Scratch, Output],
    run,
    expected: answer::normalize_nmtokens,
    reading: Some(answer::reading),
    misreadings: &[],
    documented: &[documented::ROWS],
    seams: woven::seams::<Tokens>,
    families: &[
        attribute::FAMILIES,
        &[
            inputs::every_spacing,
            inputs::every_run,
            entities::damaged_tables,
            woven::long::<Tokens>,
            woven::every_character::<Tokens>,
            woven::every_short_text::<Tokens>,
            woven::every_length_and_address::<Tokens>,
            woven::damaged::<Tokens>,
        ],
    ],
    random: woven::random::<Tokens>,
    stored: "\
normalize_nmtokens TEXT VERSION DEPTH LIMIT LIST POOL SCRATCH ROOM = NUMBER FIRST SECOND VALUE OUTPUT, with VALUE for what is written at the
# scratch's start.",
    faults: &[
        faults::STAGE,
        faults::BOTH_STAGES,
        LOOKUP,
        walk::DEPTH,
        walk::OPENINGS,
        walk::REFERENCES,
        walk::PLACES,
        MEMORY,
        external::TABLE,
        external::LOOKUP,
        external::PLACES,
        external::WALK,
        marked::TABLE,
        marked::LOOKUP,
        marked::WALK,
        marked::STOPS,
    ],
    // SAFETY: everything that is lent is of the length stated.
    timed: || rows::timed(|lent| unsafe { run(lent) }),
    differences: || vec![],
    counted: |_| {},
};
