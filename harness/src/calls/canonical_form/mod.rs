//! `govlezna_canonical_form` and `govlezna_canonical_form_strict`.

mod answer;
mod documented;
mod faults;
pub mod inputs;
mod rows;

use crate::call::Call;
use crate::call::Parameter::{Choice, Depth, Limit, Output, Scratch, Table, Text};
use crate::faults::{
    external, marked as marked_faults, memory::MEMORY, strict as strict_faults, table::LOOKUP, walk,
};
use crate::inputs::attribute::{self, Attribute};
use crate::inputs::strict::{self, Strict};
use crate::inputs::{entities, strict_rows, woven};
use crate::lent::{Lent, Run};

/// Declares a call as C does, and gives it the form that all calls share. The strict one has the parameters of the lenient one.
macro_rules! declare {
    ($call:ident, $run:ident) => {
        extern "C" {
            fn $call(
                text: *const u8,
                text_length: usize,
                version: u8,
                depth: u64,
                limit: u64,
                list: *const u8,
                list_length: usize,
                pool: *const u8,
                pool_length: usize,
                scratch: *mut u8,
                scratch_length: usize,
                out: *mut u8,
                out_length: usize,
                answer: *mut u64,
            ) -> u32;
        }

        unsafe fn $run(lent: &Lent) -> u32 {
            $call(
                lent.text,
                lent.text_length,
                lent.choice,
                lent.depth,
                lent.limit,
                lent.list,
                lent.list_length,
                lent.pool,
                lent.pool_length,
                lent.scratch,
                lent.scratch_length,
                lent.out,
                lent.out_length,
                lent.answer,
            )
        }
    };
}

declare!(govlezna_canonical_form, run);
declare!(govlezna_canonical_form_strict, run_strict);

pub const CALL: Call = Call {
    name: "canonical_form",
    parameters: &[Text, Choice, Depth, Limit, Table, Scratch, Output],
    run,
    expected: answer::canonical_form,
    reading: Some(answer::reading),
    misreadings: &[("of marked lists", marked_faults::WALK_READINGS)],
    documented: &[documented::ROWS, documented::HANDS],
    seams: inputs::seams,
    families: &[
        attribute::FAMILIES,
        &[
            inputs::hands,
            inputs::long_values,
            entities::damaged_tables,
            inputs::reread,
            inputs::spellings,
            woven::long::<Attribute>,
            woven::every_character::<Attribute>,
            woven::every_short_text::<Attribute>,
            woven::every_length_and_address::<Attribute>,
            woven::damaged::<Attribute>,
        ],
        strict::LENIENT,
    ],
    random: woven::random::<Attribute>,
    stored: "\
canonical_form TEXT VERSION DEPTH LIMIT LIST POOL SCRATCH ROOM = NUMBER FIRST SECOND HAND OUTPUT, and so for _strict,
# with SCRATCH for the scratch's length and HAND for what is written at its start.",
    faults: &[
        LOOKUP,
        walk::DEPTH,
        walk::OPENINGS,
        walk::REFERENCES,
        walk::PLACES,
        MEMORY,
        external::TABLE,
        external::LOOKUP,
        external::PLACES,
        external::WALK,
        marked_faults::TABLE,
        marked_faults::LOOKUP,
        marked_faults::WALK,
        marked_faults::STOPS,
        faults::IN_HAND,
        faults::FORM,
        &[("the strict rule", strictly)],
    ],
    // SAFETY: everything that is lent is of the length stated.
    timed: || rows::timed(|lent| unsafe { run(lent) }),
    differences: || vec![],
    counted: |all| rows::counted(all, |lent| unsafe { run(lent) }),
};

/// The strict call (K8).
pub const STRICT: Call = Call {
    name: "canonical_form_strict",
    run: run_strict,
    expected: answer::strict_canonical_form,
    reading: Some(answer::strict_reading),
    misreadings: &[("by the strict rule", strict_faults::READINGS)],
    documented: &[strict_rows::ROWS, documented::HANDS],
    seams: woven::seams::<Strict>,
    families: &[
        &[woven::seams::<Attribute>],
        attribute::FAMILIES,
        strict::FAMILIES,
        &[
            inputs::hands,
            inputs::long_values,
            entities::damaged_tables,
            inputs::strict_reread,
            inputs::strict_spellings,
        ],
    ],
    random: woven::random::<Strict>,
    stored: "",
    faults: &[
        strict_faults::LIBRARIES,
        &[("the lenient rule", leniently)],
        LOOKUP,
        walk::DEPTH,
        walk::OPENINGS,
        walk::REFERENCES,
        walk::PLACES,
        MEMORY,
        external::WALK,
        marked_faults::WALK,
        marked_faults::STOPS,
        faults::IN_HAND,
        faults::FORM,
    ],
    // SAFETY: everything that is lent is of the length stated.
    timed: || rows::strictly_timed(|lent| unsafe { run_strict(lent) }),
    counted: |all| rows::strictly_counted(all, |lent| unsafe { run_strict(lent) }),
    ..CALL
};

unsafe fn strictly(lent: &Lent, _: Run) -> u32 {
    run_strict(lent)
}

unsafe fn leniently(lent: &Lent, _: Run) -> u32 {
    run(lent)
}
