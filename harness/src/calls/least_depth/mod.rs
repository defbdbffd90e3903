//! `govlezna_least_depth` (K14).

mod answer;
mod documented;
mod faults;
mod inputs;
mod rows;

use crate::call::Call;
use crate::call::Parameter::{Choice, Limit, Table, Text};
use crate::calls::normalize_attribute_value::run as count;
use crate::faults::{external, marked, table::LOOKUP, walk};
use crate::inputs::attribute::{self, Attribute};
use crate::inputs::{entities, woven};
use crate::lent::Lent;

extern "C" {
    fn govlezna_least_depth(
        text: *const u8,
        text_length: usize,
        version: u8,
        limit: u64,
        list: *const u8,
        list_length: usize,
        pool: *const u8,
        pool_length: usize,
        answer: *mut u64,
    ) -> u32;
}

unsafe fn run(lent: &Lent) -> u32 {
    govlezna_least_depth(
        lent.text,
        lent.text_length,
        lent.choice,
        lent.limit,
        lent.list,
        lent.list_length,
        lent.pool,
        lent.pool_length,
        lent.answer,
    )
}

pub const CALL: Call = Call {
    name: "least_depth",
    parameters: &[Text, Choice, Limit, Table],
    run,
    expected: answer::answer,
    reading: Some(answer::reading),
    misreadings: &[("of depths", faults::READINGS)],
    documented: &[documented::ROWS],
    seams: inputs::seams,
    families: &[
        attribute::FAMILIES,
        &[
            inputs::circles,
            inputs::every_small_table,
            inputs::chains,
            inputs::places_of_chains,
            attribute::every_replacement,
            entities::damaged_tables,
            woven::long::<Attribute>,
            woven::every_short_text::<Attribute>,
            woven::every_sequence_in_context::<Attribute>,
            woven::every_length_and_address::<Attribute>,
            woven::damaged::<Attribute>,
        ],
    ],
    random: inputs::random,
    stored: "least_depth TEXT VERSION LIMIT LIST POOL = NUMBER FIRST SECOND",
    faults: &[
        faults::DEPTHS,
        LOOKUP,
        walk::REFERENCES,
        walk::PLACES,
        external::TABLE,
        external::LOOKUP,
        external::PLACES,
        marked::TABLE,
        marked::LOOKUP,
    ],
    // SAFETY: everything that is lent is of the length stated.
    timed: || rows::timed(|lent| unsafe { run(lent) }, |lent| unsafe { count(lent) }),
    differences: || vec![],
    counted: |all| {
        rows::counted(
            all,
            |lent| unsafe { run(lent) },
            |lent| unsafe { count(lent) },
        )
    },
};
