//! `govlezna_normalize_attribute_value` and `govlezna_normalize_attribute_value_strict`.

mod documented;
mod rows;

use crate::answer::Answer;
use crate::arguments::{Arguments, Family};
use crate::call::Parameter::{Choice, Depth, Limit, Output, Table, Text};
use crate::call::{Call, Faults};
use crate::calls::c14n::inputs::attribute_forms;
use crate::calls::canonical_form::inputs::{reread, strict_reread};
use crate::faults::{
    external, marked, memory::MEMORY, strict as strict_faults, table::LOOKUP, walk,
};
use crate::inputs::attribute::{self, Attribute};
use crate::inputs::strict::{self, Strict};
use crate::inputs::{entities, strict_rows, woven};
use crate::lent::{Lent, Run};
use crate::oracle::entities as rust;
use crate::oracle::reading::{self, Rule};
use crate::oracle::result::finished;

/// Declares a call as C does, and gives it the form that all calls share. The strict one has the parameters of the lenient one.
macro_rules! declare {
    ($call:ident, $run:ident) => {
        extern "C" {
            fn $call(
                text: *const u8,
                text_length: usize,
                version: u8,
                depth: u64,
                limit: u64,
                list: *const u8,
                list_length: usize,
                pool: *const u8,
                pool_length: usize,
                out: *mut u8,
                out_length: usize,
                answer: *mut u64,
            ) -> u32;
        }

        pub unsafe fn $run(lent: &Lent) -> u32 {
            $call(
                lent.text,
                lent.text_length,
                lent.choice,
                lent.depth,
                lent.limit,
                lent.list,
                lent.list_length,
                lent.pool,
                lent.pool_length,
                lent.out,
                lent.out_length,
                lent.answer,
            )
        }
    };
}

declare!(govlezna_normalize_attribute_value, run);
declare!(govlezna_normalize_attribute_value_strict, run_strict);

pub const CALL: Call = Call {
    name: "normalize_attribute_value",
    parameters: &[Text, Choice, Depth, Limit, Table, Output],
    run,
    expected: answer,
    reading: Some(reading),
    misreadings: &[("of marked lists", marked::WALK_READINGS)],
    documented: &[documented::ROWS],
    seams: woven::seams::<Attribute>,
    families: &[
        attribute::FAMILIES,
        OWN,
        strict::LENIENT,
        &[reread, |random, sink| attribute_forms(answer, random, sink)],
    ],
    random: woven::random::<Attribute>,
    stored: "normalize_attribute_value TEXT VERSION DEPTH LIMIT LIST POOL ROOM = NUMBER FIRST SECOND OUTPUT, and so for _strict",
    faults: &[
        LOOKUP,
        walk::DEPTH,
        walk::OPENINGS,
        walk::REFERENCES,
        walk::PLACES,
        MEMORY,
        external::TABLE,
        external::LOOKUP,
        external::PLACES,
        external::WALK,
        marked::TABLE,
        marked::LOOKUP,
        marked::WALK,
        marked::STOPS,
        VALUE,
        &[("the strict rule", strictly)],
    ],
    // SAFETY: everything that is lent is of the length stated.
    timed: || rows::timed(|lent| unsafe { run(lent) }),
    differences: || vec![],
    counted: |all| rows::counted(all, |lent| unsafe { run(lent) }),
};

/// The strict call (K8).
pub const STRICT: Call = Call {
    name: "normalize_attribute_value_strict",
    run: run_strict,
    expected: |arguments| finished(arguments, rust::strictly_normalized(arguments)),
    reading: Some(|arguments| finished(arguments, reading::normalized(arguments, Rule::Strict))),
    misreadings: &[("by the strict rule", strict_faults::READINGS)],
    documented: &[strict_rows::ROWS],
    seams: woven::seams::<Strict>,
    families: &[
        &[woven::seams::<Attribute>],
        attribute::FAMILIES,
        strict::FAMILIES,
        OWN,
        &[strict::every_character_in_texts, strict_reread],
    ],
    random: woven::random::<Strict>,
    stored: "",
    faults: &[
        strict_faults::LIBRARIES,
        &[("the lenient rule", leniently)],
        LOOKUP,
        walk::DEPTH,
        walk::OPENINGS,
        walk::REFERENCES,
        walk::PLACES,
        MEMORY,
        external::WALK,
        marked::WALK,
        marked::STOPS,
        VALUE,
    ],
    // SAFETY: everything that is lent is of the length stated.
    timed: || rows::strictly_timed(|lent| unsafe { run_strict(lent) }),
    differences: || {
        rows::differences(
            |lent| unsafe { run(lent) },
            |lent| unsafe { run_strict(lent) },
        )
    },
    counted: |all| rows::strictly_counted(all, |lent| unsafe { run_strict(lent) }),
    ..CALL
};

/// What both calls are tried on.
const OWN: &[Family] = &[
    attribute::every_replacement,
    entities::damaged_tables,
    entities::every_number,
    woven::long::<Attribute>,
    woven::every_short_text::<Attribute>,
    woven::every_sequence_in_context::<Attribute>,
    woven::every_length_and_address::<Attribute>,
    woven::damaged::<Attribute>,
];

fn answer(arguments: &Arguments) -> Answer {
    finished(arguments, rust::normalized(arguments))
}

fn reading(arguments: &Arguments) -> Answer {
    finished(arguments, reading::normalized(arguments, Rule::Lenient))
}

unsafe fn strictly(lent: &Lent, _: Run) -> u32 {
    run_strict(lent)
}

unsafe fn leniently(lent: &Lent, _: Run) -> u32 {
    run(lent)
}

const VALUE: Faults = &[("a number's LF turned into a space", spaced_number)];

unsafe fn spaced_number(lent: &Lent, real: Run) -> u32 {
    let number = real(lent);
    if number == 0 && *lent.answer > 0 {
        let result = std::slice::from_raw_parts_mut(lent.out, *lent.answer as usize);
        let line_ends = result.iter_mut().filter(|byte| **byte == b'\n');
        line_ends.for_each(|byte| *byte = b' ');
    }
    number
}
